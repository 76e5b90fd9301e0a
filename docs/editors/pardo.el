;;; Colours programs of pardo: (load-file "docs/editors/pardo.el").
(require 'generic)
(define-generic-mode pardo-mode
  '(";")
  '("pardo" "rule" "const" "procs" "shared" "private" "code" "assert"
    "if" "elsif" "else" "for" "to" "downto" "while" "end" "and" "or" "xor")
  '(("\\<\\(min\\|max\\|lg\\)\\>" . font-lock-builtin-face)
    ("\\<rule[ \t]+\\(common\\|priority\\|crew\\)\\>" 1 font-lock-type-face)
    ("\\<[0-9]+\\>" . font-lock-constant-face))
  '("\\.pardo\\'")
  nil
  "Programs of pardo.")
