// The texts of the page in German, by their English words.
export const GERMAN = {
  'PRAM playground': 'PRAM-Spielplatz',
  'What is proved, and what is only shown': 'Was bewiesen ist, und was nur gezeigt wird',
  'Proved:': 'Bewiesen:',
  'Only shown:': 'Nur gezeigt:',
  ['{0} the machine’s job of each program, and every answer, state, request, conflict, atomic ' +
    'step and read that is shown, come from the proved core of this repository. {1} drawings, ' +
    'wordings and the schedule, which are this page’s own. Trusted besides are how the core ' +
    'was made for browsers, its allocator, the browser, and this page’s JavaScript: {2} of the ' +
    'repository says so at length, and {3} what is proved.']:
    '{0} Der Maschinenauftrag jedes Programms und alle Antworten, Zustände, Anforderungen, ' +
    'Konflikte, atomaren Schritte und Lesungen, die gezeigt werden, kommen vom bewiesenen Kern ' +
    'dieses Repositorys. {1} Zeichnungen, Formulierungen und der Ablauf; sie sind Sache dieser ' +
    'Seite. Vertraut wird außerdem darauf, wie der Kern für Browser gebaut wurde, auf seine ' +
    'Speicherverwaltung, auf den Browser und auf das JavaScript dieser Seite: {2} des ' +
    'Repositorys sagt das ausführlich, und {3}, was bewiesen ist.',
  Learn: 'Lernen',
  'A tour, exercises and puzzles': 'Ein Rundgang, Aufgaben und Rätsel',
  Keys: 'Tasten',
  Home: 'Pos1',
  End: 'Ende',
  Space: 'Leertaste',
  Ctrl: 'Strg',
  Tab: 'Tab',
  '{0} Keys act without {1}': '{0} Tasten wirken ohne {1}',
  ['{0} and {1} go a step back and on, of a program a line, {2} and {3} to the start and the ' +
    'end, {4} plays and pauses, {5} {6} undoes and {7} {8} redoes. In lockstep {9} and {10} go ' +
    'to the next and the previous memory access, {11} to the next stop. By workers {12} steps ' +
    'all, {13} to {14} step one, {15} goes to the next change of a word, {16} to the next ' +
    'finished step. {17} reaches every control. {18}']:
    '{0} und {1} gehen einen Schritt zurück und vor, bei einem Programm eine Zeile, {2} und ' +
    '{3} zum Anfang und zum Ende, {4} spielt ab und hält an, {5} {6} macht rückgängig und {7} ' +
    '{8} wiederholt. Im Gleichtakt gehen {9} und {10} zum nächsten und zum vorigen ' +
    'Speicherzugriff, {11} zum nächsten Haltepunkt. Durch Arbeiter: {12} lässt alle einen ' +
    'Schritt machen, {13} bis {14} einen von ihnen, {15} geht zur nächsten Änderung eines ' +
    'Wortes, {16} zum nächsten fertigen Schritt. {17} erreicht jedes Bedienelement. {18}',
  Language: 'Sprache',
  'Hand in': 'Abgeben',
  'save the solved exercises as one file': 'die gelösten Aufgaben als eine Datei speichern',
  Judge: 'Prüfen',
  'Try this input': 'Diese Eingabe probieren',
  'Begin anew': 'Neu beginnen',
  '◀ Before': '◀ Zurück',
  'Next ▶': 'Weiter ▶',
  Close: 'Schließen',
  Program: 'Programm',
  Undo: 'Rückgängig',
  'undo the change of the text': 'die Änderung des Textes rückgängig machen',
  Redo: 'Wiederholen',
  'redo the change of the text': 'die Änderung des Textes wiederholen',
  Save: 'Speichern',
  Reference: 'Referenz',
  ['A PRAM has many processors that share one memory and go in lockstep: in each step each ' +
    'of them carries out one instruction, and all read before any writes. Its rule of ' +
    'writing says what happens where several write to one place.']:
    'Eine PRAM hat viele Prozessoren mit einem gemeinsamen Speicher, die im Gleichschritt ' +
    'gehen: in jedem Schritt führt jeder einen Befehl aus, und alle lesen, bevor einer ' +
    'schreibt. Ihre Schreibregel sagt, was geschieht, wo mehrere an eine Stelle schreiben.',
  Open: 'Öffnen',
  'open a file': 'eine Datei öffnen',
  '{0} is open.': '{0} ist geöffnet.',
  '{0} has more than 64 MB, which no text may have.':
    '{0} hat mehr als 64 MB; so lang darf kein Text sein.',
  '{0} is no text: its bytes are not UTF-8.': '{0} ist kein Text: die Bytes sind kein UTF-8.',
  '{0} cannot be read.': '{0} lässt sich nicht lesen.',
  'save the text as a file': 'den Text als Datei speichern',
  'Copy link': 'Link kopieren',
  'Program: your own, or one of the gallery': 'Programm: ein eigenes oder eines der Galerie',
  'The text of the program': 'Der Text des Programms',
  'No stops': 'Keine Haltepunkte',
  ['Not all of your programs fit into what this browser keeps for the page: save those as ' +
    'files that you want to have again.']:
    'Nicht alle Ihre Programme passen in das, was dieser Browser für die Seite aufbewahrt: ' +
    'Speichern Sie als Datei, was Sie wiederhaben wollen.',
  'The link': 'Der Link',
  'The machine is shown once the program has no fault.':
    'Die Maschine wird gezeigt, sobald das Programm keinen Fehler hat.',
  'Write “{0}”': '„{0}“ schreiben',
  'The machine stays on the last text that had no fault.':
    'Die Maschine bleibt beim letzten Text, der keinen Fehler hatte.',
  'In lockstep': 'Im Gleichtakt',
  'By workers': 'Durch Arbeiter',
  Views: 'Ansichten',
  'to the start': 'zum Anfang',
  '◀ Back': '◀ Zurück',
  'after step': 'nach Schritt',
  'Step ▶': 'Schritt ▶',
  'to the end': 'zum Ende',
  '◀◀ Access': '◀◀ Zugriff',
  'previous memory access': 'voriger Speicherzugriff',
  'Access ▶▶': 'Zugriff ▶▶',
  'next memory access': 'nächster Speicherzugriff',
  'To a stop': 'Bis zum Haltepunkt',
  'to the next stop': 'zum nächsten Haltepunkt',
  '▶ Play': '▶ Abspielen',
  'steps a second': 'Schritte in der Sekunde',
  '{0} the machine’s steps': '{0} die Schritte der Maschine',
  'Memory, and who reads and writes it in the next step':
    'Der Speicher, und wer ihn im nächsten Schritt liest und schreibt',
  'is read': 'wird gelesen',
  'will be written': 'wird geschrieben',
  'was written just now': 'wurde eben geschrieben',
  disputed: 'umstritten',
  'Save picture': 'Bild speichern',
  Steps: 'Schritte',
  'at work': 'bei der Arbeit',
  'read a cell': 'lesen eine Zelle',
  'write a cell': 'schreiben eine Zelle',
  'go to a step': 'zu einem Schritt gehen',
  'Costs and model': 'Kosten und Modell',
  Processors: 'Prozessoren',
  'workers {0}': 'Arbeiter {0}',
  'Step all': 'Alle einen Schritt',
  'step all 10 times': 'alle 10-mal einen Schritt',
  'step all 100 times': 'alle 100-mal einen Schritt',
  'Next change': 'Nächste Änderung',
  'to the next change of a word': 'zur nächsten Änderung eines Wortes',
  'Next finished step': 'Nächster fertiger Schritt',
  'to the next finished step': 'zum nächsten fertigen Schritt',
  'To the end': 'Bis zum Ende',
  'rounds a second': 'Runden in der Sekunde',
  'undo the change of the schedule': 'die Änderung des Ablaufs rückgängig machen',
  'redo the change of the schedule': 'die Änderung des Ablaufs wiederholen',
  'Start again': 'Von vorn',
  'one moment back': 'einen Moment zurück',
  moment: 'Moment',
  'one moment on': 'einen Moment vor',
  'to the last moment': 'zum letzten Moment',
  'moment {0}': 'Moment {0}',
  'Back to what was': 'Zurück zu dem, was war',
  'The schedule is full: a page holds 400,000 acts.':
    'Der Ablauf ist voll: Eine Seite fasst 400,000 Ereignisse.',
  'Progress tree': 'Fortschrittsbaum',
  'finished last below:': 'darunter zuletzt fertig:',
  compact: 'kompakte',
  wide: 'weite',
  ['This is the {0} form of the board, as in {1}: a leaf for each processor. {2} and {3} use ' +
    'the {4} form, where a leaf stands for up to 64 processors and workers start far apart. ' +
    'The number in a node is the phase that is finished below it.']:
    'Das ist die {0} Form der Tafel, wie in {1}: ein Blatt für jeden Prozessor. {2} und {3} ' +
    'nehmen die {4} Form, in der ein Blatt für bis zu 64 Prozessoren steht und die Arbeiter ' +
    'weit voneinander beginnen. Die Zahl in einem Knoten ist die Phase, die unter ihm fertig ' +
    'ist.',
  'Cells as a reader gets them, each with its step':
    'Die Zellen, wie ein Leser sie bekommt, jede mit ihrem Schritt',
  'The two words of a place': 'Die zwei Wörter einer Stelle',
  cell: 'Zelle',
  'register of processor': 'Register eines Prozessors',
  'counter of processor': 'Befehlszähler eines Prozessors',
  'place {0}': 'Stelle {0}',
  'number {0}': 'Nummer {0}',
  'register {0}': 'Register {0}',
  'Changes of the place': 'Änderungen der Stelle',
  'Atomic steps, the newest first': 'Atomare Schritte, der neueste zuerst',
  'None yet.': 'Noch keine.',
  'Later ones': 'Spätere',
  'Atomic steps': 'Atomare Schritte',
  'Earlier ones': 'Frühere',
  'An adversary': 'Ein Gegner',
  ['Whatever it does, the answer is the plain machine’s: that is the theorem. What it finds ' +
    'here is evidence.']:
    'Was er auch tut, die Antwort ist die der einfachen Maschine: Das ist der Satz. Was er hier ' +
    'findet, ist ein Beleg.',
  'Random schedule': 'Zufälliger Ablauf',
  'seed {0}': 'Startwert {0}',
  'how mean {0}': 'wie gemein {0}',
  'kind: some sleep for a while': 'freundlich: manche schlafen eine Weile',
  'mean: some are lost, too': 'gemein: manche gehen auch verloren',
  'cruel: they are lost again and again': 'grausam: sie gehen immer wieder verloren',
  'The schedule is full before the job ends.': 'Der Ablauf ist voll, ehe der Auftrag endet.',
  'The answer is the plain machine’s.': 'Die Antwort ist die der einfachen Maschine.',
  'ANOTHER ANSWER THAN the plain machine’s.': 'EINE ANDERE ANTWORT ALS die der einfachen Maschine.',
  'Seed {0}, {1}.': 'Startwert {0}, {1}.',
  'Atomic steps: {0}. Losses: {1}. Returns: {2}. Sleeps: {3}.':
    'Atomare Schritte: {0}. Verluste: {1}. Rückkehren: {2}. Schlafzeiten: {3}.',
  'A click ended it.': 'Ein Klick hat es beendet.',
  'Acts so far: {0}.': 'Ereignisse bisher: {0}.',
  'worst moments to lose each worker': 'schlimmste Momente, jeden Arbeiter zu verlieren',
  'Worst moments': 'Schlimmste Momente',
  'from here on, each worker but one is lost; within 2,000 schedules and 10 seconds':
    'von hier an gehen alle Arbeiter bis auf einen verloren; in höchstens 2,000 Abläufen und 10 ' +
    'Sekunden',
  'Schedules tried: {0}.': 'Versuchte Abläufe: {0}.',
  ['{0}, lost at moment {1}: those who are left make {2} atomic steps from here on, and {3} if ' +
    'the moment is the kindest. Moments tried: {4} of {5}.']:
    '{0}, verloren im Moment {1}: Die Übrigen machen von hier an {2} atomare Schritte, und ' +
    '{3} im freundlichsten Moment. Versuchte Momente: {4} von {5}.',
  'Fewer than two workers are going: nobody is to be lost.':
    'Weniger als zwei Arbeiter sind am Werk: Niemand soll verloren gehen.',
  'All schedules': 'Alle Abläufe',
  '{0} worker 1 may be lost': '{0} Arbeiter 1 kann verloren gehen',
  'Show the slowest': 'Den langsamsten zeigen',
  'Take a small program': 'Ein kleines Programm nehmen',
  'a small program': 'ein kleines Programm',
  'States met so far: {0}.': 'Zustände bisher: {0}.',
  ['Not all schedules were met: it ended after {0} states, which is what a page holds. Try ' +
    'fewer workers, or a smaller program.']:
    'Nicht alle Abläufe kamen vor: Nach {0} Zuständen war Schluss, mehr fasst eine Seite nicht. ' +
    'Versuchen Sie es mit weniger Arbeitern oder einem kleineren Programm.',
  'Different ends met: {0}.': 'Verschiedene Enden, die vorkamen: {0}.',
  'Each has the plain machine’s answer: the core replayed a schedule to it.':
    'Jedes hat die Antwort der einfachen Maschine: Der Kern hat einen Ablauf dorthin ' +
    'nachgespielt.',
  'NOT EACH HAS the plain machine’s answer.': 'NICHT JEDES HAT die Antwort der einfachen Maschine.',
  ['All schedules: {0}. States, each met once: {1}. Different atomic steps, each told by the ' +
    'core: {2}.']:
    'Alle Abläufe: {0}. Zustände, jeder einmal besucht: {1}. Verschiedene atomare Schritte, ' +
    'jeder vom Kern gesagt: {2}.',
  'Different ends: {0}.': 'Verschiedene Enden: {0}.',
  'The shortest schedule has {0} atomic steps, the slowest {1}.':
    'Der kürzeste Ablauf hat {0} atomare Schritte, der langsamste {1}.',
  'Take the schedule home: a plan for {0}': 'Den Ablauf mitnehmen: ein Plan für {0}',
  'Save plan.csv': 'plan.csv speichern',
  'The plan': 'Der Plan',
  'The machine': 'Die Maschine',
  'The whole page, with the program': 'Die ganze Seite, mit dem Programm',
  active: 'aktiv',
  waits: 'wartet',
  gone: 'ausgefallen',
  done: 'fertig',
  'an act of a schedule is unknown': 'ein Ereignis eines Ablaufs ist unbekannt',
  'no such worker': 'diesen Arbeiter gibt es nicht',
  'too many twins': 'zu viele Zwillinge',
  'a schedule is not written so': 'so schreibt man keinen Ablauf',
  'too many acts': 'zu viele Ereignisse',
  '{0} is out of its limits': '{0} liegt außerhalb der Grenzen',
  'there is no such example': 'dieses Beispiel gibt es nicht',
  '{0}, and other lines': '{0}, und weitere Zeilen',
  'from cell {0}': 'ab Zelle {0}',
  'earlier cells': 'frühere Zellen',
  'later cells': 'spätere Zellen',
  ['This run needs {0}. With other values at the start the same program may cost more, and ' +
    'need a stronger model.']:
    'Dieser Lauf braucht {0}. Mit anderen Werten am Anfang kann dasselbe Programm mehr kosten ' +
    'und ein stärkeres Modell brauchen.',
  ['A model is judged by the steps of the machine, of which a line is several: two who read ' +
    'one place in a line may read it in different steps.']:
    'Ein Modell wird an den Schritten der Maschine gemessen, von denen eine Zeile mehrere hat: ' +
    'Zwei, die in einer Zeile dieselbe Stelle lesen, lesen sie vielleicht in verschiedenen ' +
    'Schritten.',
  steps: 'Schritte',
  processors: 'Prozessoren',
  Growth: 'Wachstum',
  'constant {0}': 'Konstante {0}',
  'values {0}': 'Werte {0}',
  'Try them': 'Ausprobieren',
  'A conflict ends it.': 'Ein Konflikt beendet es.',
  'There is no such program, or it is too large.':
    'Es gibt kein solches Programm, oder es ist zu groß.',
  'The values are numbers, at most {0} of them.': 'Die Werte sind Zahlen, höchstens {0} davon.',
  'All values were tried.': 'Alle Werte sind ausprobiert.',
  '{0} = {1} is tried.': '{0} = {1} wird ausprobiert.',
  'processors times steps': 'Prozessoren mal Schritte',
  'their product': 'ihr Produkt',
  'instructions executed': 'ausgeführte Befehle',
  'most processors at work': 'meiste arbeitende Prozessoren',
  'steps with a read': 'Schritte mit Lesezugriff',
  'steps with a write': 'Schritte mit Schreibzugriff',
  'Not {0}: in step {1} processors {2} and {3} read {4}.':
    'Nicht {0}: In Schritt {1} lesen die Prozessoren {2} und {3} {4}.',
  'Not {0}: in step {1} processors {2} and {3} write {4}.':
    'Nicht {0}: In Schritt {1} schreiben die Prozessoren {2} und {3} {4}.',
  'Not {0}: in step {1} processors {2} and {3} write different values to {4}.':
    'Nicht {0}: In Schritt {1} schreiben die Prozessoren {2} und {3} verschiedene Werte nach {4}.',
  'Not {0}: in line {5}, step {1}, processors {2} and {3} read {4}.':
    'Nicht {0}: In Zeile {5}, Schritt {1}, lesen die Prozessoren {2} und {3} {4}.',
  'Not {0}: in line {5}, step {1}, processors {2} and {3} write {4}.':
    'Nicht {0}: In Zeile {5}, Schritt {1}, schreiben die Prozessoren {2} und {3} {4}.',
  'Not {0}: in line {5}, step {1}, processors {2} and {3} write different values to {4}.':
    'Nicht {0}: In Zeile {5}, Schritt {1}, schreiben die Prozessoren {2} und {3} verschiedene ' +
    'Werte nach {4}.',
  'from line {0}': 'ab Zeile {0}',
  'earlier lines': 'frühere Zeilen',
  'later lines': 'spätere Zeilen',
  'Stop here, or no more': 'Hier anhalten oder nicht mehr',
  'To this line': 'Bis zu dieser Zeile',
  'It ended with {0} processor still running (P{1} in line {2}).':
    'Am Ende lief noch {0} Prozessor (P{1} in Zeile {2}).',
  'It ended with {0} processors still running (P{1} in line {2}).':
    'Am Ende liefen noch {0} Prozessoren (P{1} in Zeile {2}).',
  'All had stopped after step {0}.': 'Nach Schritt {0} hatten alle angehalten.',
  'Processor {0} stopped in step {1} at line {2}: no such cell.':
    'Prozessor {0} hielt in Schritt {1} in Zeile {2} an: Diese Zelle gibt es nicht.',
  'Processor {0} stopped in step {1} at line {2}: its array has no such place.':
    'Prozessor {0} hielt in Schritt {1} in Zeile {2} an: Diese Stelle hat sein Feld nicht.',
  'own numbers': 'eigene Nummern',
  'A[i] becomes i.': 'A[i] wird i.',
  double: 'verdoppeln',
  'B[i] becomes twice A[i], modulo 2^32.': 'B[i] wird das Doppelte von A[i], modulo 2^32.',
  reverse: 'umkehren',
  'B becomes A in reverse: B[0] is A[n - 1].':
    'B wird A in umgekehrter Reihenfolge: B[0] ist A[n - 1].',
  neighbours: 'Nachbarn',
  'B[i] becomes A[i] + A[i + 1], and B[n - 1] becomes A[n - 1] + A[0], modulo 2^32.':
    'B[i] wird A[i] + A[i + 1], und B[n - 1] wird A[n - 1] + A[0], modulo 2^32.',
  broadcast: 'Broadcast',
  'Each A[i] becomes A[0]. No two may read it in one step: copies make copies.':
    'Jedes A[i] wird A[0]. Keine zwei dürfen es in einem Schritt lesen: Kopien machen Kopien.',
  'is a seven among them': 'ist eine Sieben darunter',
  'found becomes 1 if some A[i] is 7, and else stays 0.':
    'found wird 1, wenn ein A[i] 7 ist, und bleibt sonst 0.',
  sum: 'Summe',
  'total becomes the sum of all A[i], modulo 2^32. n is a power of two. A may change.':
    'total wird die Summe aller A[i], modulo 2^32. n ist eine Zweierpotenz. A darf sich ändern.',
  maximum: 'Maximum',
  'greatest becomes the greatest of all A[i]. n is a power of two. A may change.':
    'greatest wird das größte aller A[i]. n ist eine Zweierpotenz. A darf sich ändern.',
  'prefix sums': 'Präfixsummen',
  'A[i] becomes A[0] + .. + A[i], modulo 2^32. n is a power of two.':
    'A[i] wird A[0] + .. + A[i], modulo 2^32. n ist eine Zweierpotenz.',
  'ranks in a list': 'Ränge in einer Liste',
  ['N[i] is the element after i in a list, and of its last one that itself. R[i] becomes how ' +
    'many come after i. N may change.']:
    'N[i] ist das Element nach i in einer Liste, und beim letzten dieses selbst. R[i] wird die ' +
    'Anzahl derer, die nach i kommen. N darf sich ändern.',
  'sums in segments': 'Summen in Abschnitten',
  ['Where F[i] is 1 a segment begins, and at A[0], too; else F[i] is 0. A[i] becomes the sum ' +
    'of its segment\'s values up to A[i], modulo 2^32. F may change.']:
    'Wo F[i] 1 ist, beginnt ein Abschnitt, und auch bei A[0]; sonst ist F[i] 0. A[i] wird die ' +
    'Summe der Werte seines Abschnitts bis A[i], modulo 2^32. F darf sich ändern.',
  compaction: 'Verdichten',
  ['The values of A that are not 0 go to the front of B, in their order; count becomes how ' +
    'many they are. The other places of B stay 0. n is a power of two.']:
    'Die Werte von A, die nicht 0 sind, kommen in ihrer Reihenfolge an den Anfang von B; count ' +
    'wird ihre Anzahl. Die anderen Stellen von B bleiben 0. n ist eine Zweierpotenz.',
  'prefix sums by few': 'Präfixsummen durch wenige',
  ['A[i] becomes A[0] + .. + A[i], modulo 2^32, of n values by p processors; n is a multiple ' +
    'of p. Each processor makes about as many additions as it has values.']:
    'A[i] wird A[0] + .. + A[i], modulo 2^32, bei n Werten durch p Prozessoren; n ist ein ' +
    'Vielfaches von p. Jeder Prozessor macht etwa so viele Additionen, wie er Werte hat.',
  'maximum in constant time': 'Maximum in konstanter Zeit',
  'greatest becomes the greatest of all A[i]. There is a processor for each pair of values.':
    'greatest wird das größte aller A[i]. Für jedes Paar von Werten gibt es einen Prozessor.',
  'merge of two rows': 'zwei Reihen mischen',
  ['A and B are sorted, each from its least value to its greatest. C becomes all their ' +
    'values, sorted. n is a power of two.']:
    'A und B sind sortiert, je vom kleinsten Wert zum größten. C wird all ihre Werte, ' +
    'sortiert. n ist eine Zweierpotenz.',
  sort: 'sortieren',
  'A becomes sorted, from its least value to its greatest. n is a power of two.':
    'A wird sortiert, vom kleinsten Wert zum größten. n ist eine Zweierpotenz.',
  'matrix product': 'Matrixprodukt',
  ['C becomes the product of A and B: C[r, c] is A[r, 0] * B[0, c] + .. + A[r, n - 1] * B[n - ' +
    '1, c], modulo 2^32. There is a processor for each place of C.']:
    'C wird das Produkt von A und B: C[r, c] ist A[r, 0] * B[0, c] + .. + A[r, n - 1] * B[n - ' +
    '1, c], modulo 2^32. Für jede Stelle von C gibt es einen Prozessor.',
  'depths in a tree': 'Tiefen in einem Baum',
  ['A tour goes around a tree of n nodes: each edge is an arc down and one up. next[a] is the ' +
    'arc after a, and of the last one that itself; down[a] is 1 if a leads down, else 0; ' +
    'head[a] is the node that it leads to. depth[v] becomes how many edges v lies below the ' +
    'root, where the tour begins and ends. next may change.']:
    'Ein Rundweg führt um einen Baum mit n Knoten: Jede Kante ist ein Bogen hinab und einer ' +
    'hinauf. next[a] ist der Bogen nach a, und beim letzten dieser selbst; down[a] ist 1, wenn ' +
    'a hinabführt, sonst 0; head[a] ist der Knoten, zu dem er führt. depth[v] wird die Anzahl ' +
    'der Kanten, die v unter der Wurzel liegt, wo der Rundweg beginnt und endet. next darf ' +
    'sich ändern.',
  'ways in a graph': 'Wege in einem Graphen',
  ['A[a, b] is 1 if an edge leads from node a to node b, else 0. W[a, b] becomes 1 if a way ' +
    'does, of one edge, more or none, and else 0. There is a processor for each three nodes. A ' +
    'may change.']:
    'A[a, b] ist 1, wenn eine Kante von Knoten a zu Knoten b führt, sonst 0. W[a, b] wird 1, ' +
    'wenn ein Weg das tut, mit einer Kante, mehreren oder keiner, und sonst 0. Für je drei ' +
    'Knoten gibt es einen Prozessor. A darf sich ändern.',
  'connected components': 'Zusammenhangskomponenten',
  ['Edge i joins the nodes U[i] and V[i], which may be the same. C[v] becomes the least node ' +
    'that v is joined to, by one edge, more or none. m is at least n.']:
    'Kante i verbindet die Knoten U[i] und V[i], die gleich sein dürfen. C[v] wird der ' +
    'kleinste Knoten, mit dem v verbunden ist, durch eine Kante, mehrere oder keine. m ist ' +
    'mindestens n.',
  '“{0}” needs two registers, as in “{1}”, or in pram 3 of an array A “{2}”.':
    '„{0}“ braucht zwei Register, wie in „{1}“, oder in pram 3 mit einem Feld A „{2}“.',
  '“{0}” needs no operand, as in “{1}”.': '„{0}“ braucht keinen Operanden, wie in „{1}“.',
  '“{0}” needs one register, as in “{1}”.': '„{0}“ braucht ein Register, wie in „{1}“.',
  '“{0}” needs a register and a number, as in “{1}”.':
    '„{0}“ braucht ein Register und eine Zahl, wie in „{1}“.',
  '“{0}” needs three registers, as in “{1}”.': '„{0}“ braucht drei Register, wie in „{1}“.',
  '“{0}” needs a register and a label, as in “{1}”.':
    '„{0}“ braucht ein Register und eine Marke, wie in „{1}“.',
  '“{0}” needs one label, as in “{1}”.': '„{0}“ braucht eine Marke, wie in „{1}“.',
  'There are 1 to 65,536 cells, with pram 3 up to 1,048,576.':
    'Es gibt 1 bis 65,536 Zellen, mit pram 3 bis zu 1,048,576.',
  'There are 1 to 1,024 processors, with pram 3 up to 65,536.':
    'Es gibt 1 bis 1,024 Prozessoren, mit pram 3 bis zu 65,536.',
  'There are at most 4,294,967,295 steps.': 'Es gibt höchstens 4,294,967,295 Schritte.',
  'A cell must be one that there is, and a value is at most 4,294,967,295.':
    'Die Zelle muss es geben, und ein Wert ist höchstens 4,294,967,295.',
  'An array has a cell at least, and all of its cells must be ones that there are.':
    'Ein Feld hat mindestens eine Zelle, und alle seine Zellen muss es geben.',
  'A number is at most 4,294,967,295.': 'Eine Zahl ist höchstens 4,294,967,295.',
  ['The lines before the program are, in this order: pram 1, cells M, procs N, steps T, any ' +
    'number of init CELL VALUE, code. With pram 2, a line rule common, rule priority or rule ' +
    'crew stands after steps. With pram 3, any number of array NAME BASE LENGTH stand after ' +
    'that, and an init may have more values, for the cells that follow.']:
    'Die Zeilen vor dem Programm sind, in dieser Reihenfolge: pram 1, cells M, procs N, steps ' +
    'T, beliebig viele init CELL VALUE, code. Mit pram 2 steht nach steps eine Zeile rule ' +
    'common, rule priority oder rule crew. Mit pram 3 stehen danach beliebig viele array NAME ' +
    'BASE LENGTH, und ein init darf mehr Werte haben, für die Zellen, die folgen.',
  'The character of number {0} in column {1} is not allowed, in comments either.':
    'Das Zeichen mit der Nummer {0} in Spalte {1} ist nicht erlaubt, auch nicht in Kommentaren.',
  'The character “{0}” in column {1} is not allowed, in comments either.':
    'Das Zeichen „{0}“ in Spalte {1} ist nicht erlaubt, auch nicht in Kommentaren.',
  'The character of number {0} in column {1} is allowed in comments alone.':
    'Das Zeichen mit der Nummer {0} in Spalte {1} ist nur in Kommentaren erlaubt.',
  'The character “{0}” in column {1} is allowed in comments alone.':
    'Das Zeichen „{0}“ in Spalte {1} ist nur in Kommentaren erlaubt.',
  '“{0}” names an array already or can name none, or array does not stand here.':
    '„{0}“ nennt schon ein Feld oder kann keines nennen, oder array gehört nicht hierher.',
  'Cell {0} was given a value before, or init does not stand here.':
    'Zelle {0} hat schon einen Wert bekommen, oder init gehört nicht hierher.',
  'A rule is common, priority or crew, and stands only in a text of pram 2 or 3.':
    'Eine Regel ist common, priority oder crew und steht nur in einem Text von pram 2 oder 3.',
  '“{0}” does not stand here.': '„{0}“ gehört nicht hierher.',
  'A line is missing.': 'Eine Zeile fehlt.',
  '“{0}” must be a number, as in “cells 8” or “set r1 5”.':
    '„{0}“ muss eine Zahl sein, wie in „cells 8“ oder „set r1 5“.',
  'A number is missing, as in “cells 8” or “set r1 5”.':
    'Eine Zahl fehlt, wie in „cells 8“ oder „set r1 5“.',
  'An instruction must stand after the label, on the same line.':
    'Nach der Marke muss ein Befehl stehen, in derselben Zeile.',
  'A label is a letter or _, then letters, digits and _, then “:”.':
    'Eine Marke ist ein Buchstabe oder _, dann Buchstaben, Ziffern und _, dann „:“.',
  'There is no instruction “{0}”. There are {1}; shl, shr, div and rem with pram 3 alone.':
    'Einen Befehl „{0}“ gibt es nicht. Es gibt {1}; shl, shr, div und rem nur mit pram 3.',
  'An operand is no register.': 'Ein Operand ist kein Register.',
  '“{0}” is no register.': '„{0}“ ist kein Register.',
  'It is “{0}”.': 'Es ist „{0}“.',
  'A line defines “{0}” by beginning with “{0}:”.':
    'Eine Zeile setzt die Marke „{0}“, indem sie mit „{0}:“ beginnt.',
  'this line is refused': 'diese Zeile wird abgelehnt',
  '{0}.': '{0}.',
  empty: 'leer',
  'your own: {0}': 'eigenes: {0}',
  'Your own': 'Eigene',
  'Gallery, in pardo': 'Galerie, in pardo',
  'Gallery, for the machine itself': 'Galerie, für die Maschine selbst',
  'the program of this link': 'das Programm dieses Links',
  'a new program': 'ein neues Programm',
  'name {0}': 'Name {0}',
  Rename: 'Umbenennen',
  Cancel: 'Abbrechen',
  'Undo the deletion': 'Löschen rückgängig machen',
  '“{0}” is deleted.': '„{0}“ ist gelöscht.',
  'deleted: {0}': 'gelöscht: {0}',
  'rename this program': 'dieses Programm umbenennen',
  'delete this program': 'dieses Programm löschen',
  'there is no such lesson': 'eine solche Lektion gibt es nicht',
  'line {0}: {1}': 'Zeile {0}: {1}',
  'Processor {0} is gone since line {1}, where its array has no such place.':
    'Prozessor {0} ist seit Zeile {1} ausgefallen, wo sein Feld diese Stelle nicht hat.',
  'a line of the header is missing.': 'eine Zeile des Kopfes fehlt.',
  'two processors write one place in line {0}, against the rule.':
    'zwei Prozessoren schreiben eine Stelle in Zeile {0}, gegen die Regel.',
  'a value is not the one that is wanted.': 'ein Wert ist nicht der verlangte.',
  'a processor is gone in line {0}.': 'ein Prozessor ist in Zeile {0} ausgefallen.',
  'a length is not the one that is wanted.': 'eine Länge ist nicht die verlangte.',
  'it needs {1}: two processors read one place in line {0}.':
    'es braucht {1}: Zwei Prozessoren lesen eine Stelle in Zeile {0}.',
  'it needs {1}: two processors write one place in line {0}.':
    'es braucht {1}: Zwei Prozessoren schreiben eine Stelle in Zeile {0}.',
  'it needs {1}: two processors write different values to one place in line {0}.':
    'es braucht {1}: Zwei Prozessoren schreiben verschiedene Werte an eine Stelle in Zeile {0}.',
  'all is right, but it takes too much time.': 'alles stimmt, aber es braucht zu viel Zeit.',
  'all is right, but it makes too many operations.':
    'alles stimmt, aber es macht zu viele Operationen.',
  'all is right, but the machine makes too many steps.':
    'alles stimmt, aber die Maschine macht zu viele Schritte.',
  'all is right, but in too many lines of code.': 'alles stimmt, aber in zu vielen Codezeilen.',
  'Not yet, on input {0} of {1}, which is not shown: {2}':
    'Noch nicht, bei Eingabe {0} von {1}, die nicht gezeigt ist: {2}',
  'processor {0} is gone in line {1}.':
    'Prozessor {0} ist in Zeile {1} ausgefallen.',
  '{0} has length {1}, wanted {2}.':
    '{0} hat die Länge {1}, verlangt war {2}.',
  '{0} holds {1}, wanted {2}.': '{0} hat {1}, verlangt war {2}.',
  '{0} holds {1}, wanted {2}; no line wrote it.':
    '{0} hat {1}, verlangt war {2}; keine Zeile hat es geschrieben.',
  '{0} holds {1}, wanted {2}; line {3} wrote it last.':
    '{0} hat {1}, verlangt war {2}; zuletzt hat es Zeile {3} geschrieben.',
  'Not yet: the line “{0}” is missing. “Begin anew” brings it back.':
    'Noch nicht: Die Zeile „{0}“ fehlt. „Neu beginnen“ bringt sie zurück.',
  'Not yet, {0}': 'Noch nicht, {0}',
  'nothing is named “{1}”, with the input in its line {0}':
    'nichts heißt „{1}“, bei der Eingabe in ihrer Zeile {0}',
  'Inputs that are shown': 'Eingaben, die gezeigt sind',
  input: 'Eingabe',
  '{0} wanted': '{0} verlangt',
  'Time at most {0}.': 'Zeit höchstens {0}.',
  'Operations at most {0}.': 'Operationen höchstens {0}.',
  'Steps of the machine at most {0}.': 'Schritte der Maschine höchstens {0}.',
  'Lines of code at most {0}.': 'Codezeilen höchstens {0}.',
  'it has a character that no text here may have':
    'sie hat ein Zeichen, das hier kein Text haben darf',
  'the first line has to be “exercise 1”': 'die erste Zeile muss „exercise 1“ sein',
  'no line of an exercise begins with this word':
    'mit diesem Wort beginnt keine Zeile einer Aufgabe',
  'something is wrong behind the first word': 'hinter dem ersten Wort stimmt etwas nicht',
  'it may stand once, and stands a second time': 'das darf einmal stehen und steht ein zweites Mal',
  'the text ends without “{0}”': 'der Text endet ohne „{0}“',
  'this input does not say what is wanted, and there is no reference':
    'diese Eingabe sagt nicht, was verlangt ist, und es gibt keine Musterlösung',
  'it is too long': 'er ist zu lang',
  'the text is no exercise: {0}': 'der Text ist keine Aufgabe: {0}',
  'Under {0}.': 'Unter {0}.',
  'Judge tries your lines on {0} inputs, of which {1} are not shown.':
    '„Prüfen“ probiert Ihre Zeilen an {0} Eingaben, von denen {1} nicht gezeigt sind.',
  '{0} cannot be opened: {1}.': '{0} lässt sich nicht öffnen: {1}.',
  'processors {0} and {1} write {2} in line {3}, against the rule {4}.':
    'die Prozessoren {0} und {1} schreiben {2} in Zeile {3}, gegen die Regel {4}.',
  'processors {0} and {1} write different values to {2} in line {3}, against the rule {4}.':
    'die Prozessoren {0} und {1} schreiben verschiedene Werte nach {2} in Zeile {3}, gegen die ' +
    'Regel {4}.',
  'it needs {4}: processors {0} and {1} read {2} in line {3}.':
    'es braucht {4}: Die Prozessoren {0} und {1} lesen {2} in Zeile {3}.',
  'it needs {4}: processors {0} and {1} write {2} in line {3}.':
    'es braucht {4}: Die Prozessoren {0} und {1} schreiben {2} in Zeile {3}.',
  'it needs {4}: processors {0} and {1} write different values to {2} in line {3}.':
    'es braucht {4}: Die Prozessoren {0} und {1} schreiben verschiedene Werte nach {2} in ' +
    'Zeile {3}.',
  'all is right, but its time is {0}; at most {1} is allowed here.':
    'alles stimmt, aber die Zeit ist {0}; höchstens {1} ist hier erlaubt.',
  'all is right, but it makes {0} operations; at most {1} are allowed here.':
    'alles stimmt, aber es macht {0} Operationen; höchstens {1} sind hier erlaubt.',
  'all is right, but the machine makes {0} steps; at most {1} are allowed here.':
    'alles stimmt, aber die Maschine macht {0} Schritte; höchstens {1} sind hier erlaubt.',
  'all is right, but in {0} lines of code; at most {1} are allowed.':
    'alles stimmt, aber in {0} Codezeilen; höchstens {1} sind erlaubt.',
  'Not yet, on input {0} of {1}: {2}': 'Noch nicht, bei Eingabe {0} von {1}: {2}',
  'Not yet, on input {0} of {1} ({2}): {3}': 'Noch nicht, bei Eingabe {0} von {1} ({2}): {3}',
  'the input in its line {0} sets a bad header: {1}':
    'die Eingabe in ihrer Zeile {0} setzt einen falschen Kopf: {1}',
  'the input in its line {0} says badly what is wanted: {1}':
    'die Eingabe in ihrer Zeile {0} sagt falsch, was verlangt ist: {1}',
  'a bar has no value with the input in its line {0}: {1}':
    'eine Schranke hat mit der Eingabe in ihrer Zeile {0} keinen Wert: {1}',
  'its reference fails with the input in its line {0}: {1}':
    'ihre Musterlösung scheitert an der Eingabe in ihrer Zeile {0}: {1}',
  'its reference ends with other values than the input in its line {0} wants':
    'ihre Musterlösung endet mit anderen Werten, als die Eingabe in ihrer Zeile {0} verlangt',
  'its reference ends in a conflict with the input in its line {0}':
    'ihre Musterlösung endet mit der Eingabe in ihrer Zeile {0} in einem Konflikt',
  'This exercise cannot be judged by: {0}': 'Nach dieser Aufgabe lässt sich nicht prüfen: {0}',
  'Right on all {0} inputs.': 'Richtig bei allen {0} Eingaben.',
  'Right on all {0} inputs, under {1}.': 'Richtig bei allen {0} Eingaben, unter {1}.',
  'Not yet: the text is too long.': 'Noch nicht: Der Text ist zu lang.',
  'your own': 'eigene',
  'Exercise: {0}': 'Aufgabe: {0}',
  '{0}, this input': '{0}, diese Eingabe',
  'Your own exercise: {0}': 'Eigene Aufgabe: {0}',
  'Tour {0} of {1}: {2}': 'Rundgang {0} von {1}: {2}',
  'Exercise {0}': 'Aufgabe {0}',
  'Exercise {0} of {1}: {2}': 'Aufgabe {0} von {1}: {2}',
  'Find a schedule {0} of {1}: {2}': 'Einen Ablauf finden {0} von {1}: {2}',
  'A tour: losing a worker': 'Ein Rundgang: ein Arbeiter geht verloren',
  Exercises: 'Aufgaben',
  'Find a schedule': 'Einen Ablauf finden',
  'It is being judged.': 'Es wird geprüft.',
  'Not yet: the program has a fault.': 'Noch nicht: Das Programm hat einen Fehler.',
  'The link is copied.': 'Der Link ist kopiert.',
  'Copy it from the field.': 'Kopieren Sie ihn aus dem Feld.',
  'The program or the schedule is too long for a link: save it, and send the file.':
    'Das Programm oder der Ablauf ist zu lang für einen Link: Speichern Sie es und schicken ' +
    'Sie die Datei.',
  ['This page is a file of yours, so what is copied is no whole link: others need the file ' +
    'playground.html too, and open it with this, from # on, after its address.']:
    'Diese Seite ist eine Datei auf Ihrem Rechner, also ist das Kopierte kein ganzer Link: ' +
    'Andere brauchen auch die Datei playground.html und öffnen sie mit diesem Teil, ab #, nach ' +
    'ihrer Adresse.',
  'It works for those alone who reach this computer or its network.':
    'Er taugt nur für die, die diesen Rechner oder sein Netz erreichen.',
  'The address can\'t be read: {0}.': 'Die Adresse kann nicht gelesen werden: {0}.',
  'Cells after this step': 'Zellen nach diesem Schritt',
  'Searching: step {0}.': 'Suche: Schritt {0}.',
  'No earlier memory access.': 'Kein früherer Speicherzugriff.',
  'No later memory access.': 'Kein späterer Speicherzugriff.',
  'No stop is reached any more.': 'Es wird kein Haltepunkt mehr erreicht.',
  'No processor ever comes to line {0}.': 'Kein Prozessor kommt je zu Zeile {0}.',
  'Making the start.': 'Der Anfang wird gemacht.',
  'Making {0} step.': '{0} Schritt wird gemacht.',
  'Making {0} steps.': '{0} Schritte werden gemacht.',
  'lines done': 'fertige Zeilen',
  ['Conflict: step {0} is against the rule {1}, at {2}. Processor {3} writes {4} (line {5}). ' +
    'Processor {6} writes {7} (line {8}). The machine ends before this step.']:
    'Konflikt: Schritt {0} ist gegen die Regel {1}, Stelle: {2}. Prozessor {3} schreibt {4} ' +
    '(Zeile {5}). Prozessor {6} schreibt {7} (Zeile {8}). Die Maschine endet vor diesem ' +
    'Schritt.',
  'Done: the job ends after {0} step. {1}': 'Fertig: Der Auftrag endet nach {0} Schritt. {1}',
  'Done: the job ends after {0} steps. {1}': 'Fertig: Der Auftrag endet nach {0} Schritten. {1}',
  'All processors have stopped.': 'Alle Prozessoren haben angehalten.',
  '{0} processor of {1} has an instruction to do.':
    '{0} Prozessor von {1} hat einen Befehl auszuführen.',
  '{0} processors of {1} have an instruction to do.':
    '{0} Prozessoren von {1} haben einen Befehl auszuführen.',
  'After step {0} of {1}. {2}': 'Nach Schritt {0} von {1}. {2}',
  ['Conflict: line {0} is against the rule {1}, at {2}: processor {3} writes {4}, processor ' +
    '{5} writes {6}. The program ends before it.']:
    'Konflikt: Zeile {0} ist gegen die Regel {1}, Stelle: {2}. Prozessor {3} schreibt {4}, ' +
    'Prozessor {5} schreibt {6}. Das Programm endet davor.',
  'No processor is active with {0}': 'Kein Prozessor ist aktiv mit {0}',
  'No processor is active': 'Kein Prozessor ist aktiv',
  '{1}, {0} of {2}, is active with {3}': '{1}, {0} von {2}, ist aktiv mit {3}',
  '{1}, {0} of {2}, are active with {3}': '{1}, {0} von {2}, sind aktiv mit {3}',
  '{1}, {0} of {2}, is active': '{1}, {0} von {2}, ist aktiv',
  '{1}, {0} of {2}, are active': '{1}, {0} von {2}, sind aktiv',
  '{0}, {1} of the machine': '{0}, {1} der Maschine',
  '{0} line': '{0} Zeile',
  '{0} lines': '{0} Zeilen',
  '{0} step': '{0} Schritt',
  '{0} steps': '{0} Schritte',
  'Done: the program is over after {0}. {1}':
    'Fertig: Das Programm ist zu Ende, gemacht sind {0}. {1}',
  'Line {0}: {1}. {2}. Done so far: {3}.': 'Zeile {0}: {1}. {2}. Gemacht bisher: {3}.',
  'It is being read.': 'Es wird gelesen.',
  'It is being compiled, and run once.': 'Es wird übersetzt und einmal ausgeführt.',
  'Something went wrong in this page: {0}': 'Auf dieser Seite ging etwas schief: {0}',
  'worker {0}': 'Arbeiter {0}',
  'twin {0} (of worker {1})': 'Zwilling {0} (von Arbeiter {1})',
  'the data place that processor {0} asks for': 'die Datenstelle, die Prozessor {0} verlangt',
  'the value that processor {0} asks for': 'die Wertangabe, die Prozessor {0} verlangt',
  'the next counter that processor {0} asks for':
    'die nächste Zählerangabe, die Prozessor {0} verlangt',
  'the root and only leaf': 'die Wurzel, das einzige Blatt',
  'the root': 'die Wurzel',
  'node {0}': 'Knoten {0}',
  'the leaf of processor {0}': 'das Blatt von Prozessor {0}',
  'the spare leaf {0}': 'das freie Blatt {0}',
  'the conflict word': 'das Konfliktwort',
  'the position of worker {0}': 'die Position von Arbeiter {0}',
  'the older word of {0}': 'das ältere Wort von {0}',
  'the newer word of {0}': 'das neuere Wort von {0}',
  'the claim on {0}': 'die Reservierung von {0}',
  'a spare word': 'ein freies Wort',
  'nothing finished': 'nichts fertig',
  'finished up to step {0}, {1}': 'fertig bis Schritt {0}, {1}',
  'nothing yet': 'noch nichts',
  '{0} for step {1}': '{0} für Schritt {1}',
  'none for step {0}': 'keine für Schritt {0}',
  none: 'nichts',
  'step {0}': 'Schritt {0}',
  'processor {0} in step {1}': 'Prozessor {0} in Schritt {1}',
  '{0} of step {1}': '{0} von Schritt {1}',
  '{0} finds {1} raised already: {2}': '{0} findet {1} schon erhöht: {2}',
  '{0} marks {1}: {2}': '{0} markiert {1}: {2}',
  '{0} sets {1}: {2}': '{0} setzt {1}: {2}',
  '{0} writes {1}: {2}': '{0} schreibt {1}: {2}',
  '{0} names the conflict: {1}': '{0} nennt den Konflikt: {1}',
  '{0} finds the conflict named already: {1}': '{0} findet den Konflikt schon genannt: {1}',
  '{0} swaps {1}: {2} becomes {3}': '{0} tauscht {1} aus: {2} wird zu {3}',
  '{0} comes too late to swap a word of {1}: it stays {2}':
    '{0} kommt zu spät, um ein Wort von {1} auszutauschen: Es bleibt {2}',
  '{0} reads {1}: {2}': '{0} liest {1}: {2}',
  '{0} walks to {1}': '{0} geht weiter, Ziel: {1}',
  '{0} makes no step: it is lost or over': '{0} macht keinen Schritt: verloren oder am Ende',
  '{0} is lost, with all that it knew': '{0} geht verloren, mit allem, was er wusste',
  '{0} comes back, knowing nothing': '{0} kommt zurück und weiß nichts',
  '{0} falls asleep': '{0} schläft ein',
  '{0} wakes, as if no time had passed': '{0} wacht auf, als wäre keine Zeit vergangen',
  '{0} starts beside it': '{0} beginnt daneben',
  'Lost.': 'Verloren.',
  'Comes back: is about to read where it stood.': 'Kommt zurück: liest gleich, wo er stand.',
  'Begins at {1}: looks for the phase; {0} step of its script made.':
    'Beginnt, Ort: {1}; sucht die Phase; Skript: {0} Schritt.',
  'Begins at {1}: looks for the phase; {0} steps of its script made.':
    'Beginnt, Ort: {1}; sucht die Phase; Skript: {0} Schritte.',
  'At {1}: phase {2} (step {3}, {4}); {0} step of its script made.':
    'Ort: {1}; Phase {2} (Schritt {3}, {4}); Skript: {0} Schritt.',
  'At {1}: phase {2} (step {3}, {4}); {0} steps of its script made.':
    'Ort: {1}; Phase {2} (Schritt {3}, {4}); Skript: {0} Schritte.',
  'Over: all steps are finished.': 'Am Ende: Alle Schritte sind fertig.',
  'Over: step {0} is against the rule.': 'Am Ende: Schritt {0} ist gegen die Regel.',
  'read by {0}': 'gelesen von {0}',
  'written by {0}': 'geschrieben von {0}',
  'Done.': 'Fertig.',
  'Done: the same answer as the plain machine’s. {0}':
    'Fertig: dieselbe Antwort wie die der einfachen Maschine. {0}',
  'Done: ANOTHER ANSWER THAN the plain machine’s. {0}':
    'Fertig: EINE ANDERE ANTWORT ALS die der einfachen Maschine. {0}',
  'Conflict in step {1} at {2}.': 'Konflikt in Schritt {1}, Stelle: {2}.',
  'Conflict in step {1} at {2}: the same answer as the plain machine’s. {0}':
    'Konflikt in Schritt {1}, Stelle: {2}. Dieselbe Antwort wie die der einfachen Maschine. {0}',
  'Conflict in step {1} at {2}: ANOTHER ANSWER THAN the plain machine’s. {0}':
    'Konflikt in Schritt {1}, Stelle: {2}. EINE ANDERE ANTWORT ALS die der einfachen Maschine. {0}',
  'Unfinished: the last finished step is {0}.': 'Unfertig: Der letzte fertige Schritt ist {0}.',
  apply: 'anwenden',
  compute: 'berechnen',
  verify: 'prüfen',
  claim: 'reservieren',
  'first word': 'erstes Wort',
  'second word': 'zweites Wort',
  '{0} swaps the first word: {1} becomes {2}': '{0} tauscht das erste Wort aus: {1} wird zu {2}',
  '{0} swaps the second word: {1} becomes {2}': '{0} tauscht das zweite Wort aus: {1} wird zu {2}',
  '{0}, from moment {1} to {2}': '{0}, von Moment {1} bis {2}',
  '{1}: the first word says {2}, the second {3}; {0} change so far.':
    '{1}: Das erste Wort sagt {2}, das zweite {3}; bisher {0} Änderung.',
  '{1}: the first word says {2}, the second {3}; {0} changes so far.':
    '{1}: Das erste Wort sagt {2}, das zweite {3}; bisher {0} Änderungen.',
  'cell {0}': 'Zelle {0}',
  'r{0} of processor {1}': 'r{0} von Prozessor {1}',
  'the counter of processor {0}': 'Befehlszähler von Prozessor {0}',
  'The same steps up to this moment, and then each worker in turn to the end: {0}.':
    'Dieselben Schritte bis zu diesem Moment, und dann jeder Arbeiter der Reihe nach bis zum ' +
    'Ende: {0}.',
  'A plan has no twins: go back to a moment before the first one.':
    'Ein Plan hat keine Zwillinge: Gehen Sie zu einem Moment vor dem ersten zurück.',
  '❚❚ Pause': '❚❚ Pause',
  '{0} heat': '{0} Hitze',
  'How often each line is executed, and by how many processors':
    'Wie oft jede Zeile ausgeführt wird, und von wie vielen Prozessoren',
  line: 'Zeile',
  'executed so far': 'bisher ausgeführt',
  'in the whole run': 'im ganzen Lauf',
  'active so far': 'bisher aktiv',
  'at most at once': 'höchstens zugleich',
  'Executed so far: {0} of {1} times.': 'Bisher ausgeführt: {0} von {1} Malen.',
  'Active processors, counted each time: {0} of {1}, at most {2} at once.':
    'Aktive Prozessoren, jedes Mal gezählt: {0} von {1}, höchstens {2} zugleich.',
  'Steps {0} to {1}.': 'Schritte {0} bis {1}.',
  'Step {0}: {1} read a cell, {2} write one.':
    'Schritt {0}: {1} lesen eine Zelle, {2} schreiben eine.',
  'after step {0} of {1}': 'nach Schritt {0} von {1}',
  'steps {0} to {1}': 'Schritte {0} bis {1}',
  processor: 'Prozessor',
  counter: 'Befehlszähler',
  instruction: 'Befehl',
  reads: 'liest',
  writes: 'schreibt',
  'goes to': 'geht zu',
  'from processor {0}': 'ab Prozessor {0}',
  'earlier processors': 'frühere Prozessoren',
  'later processors': 'spätere Prozessoren',
  halted: 'angehalten',
  'no such cell': 'keine solche Zelle',
  'halted in step {0}, {1}': 'angehalten in Schritt {0}, {1}',
  'no such cell in step {0}, {1}': 'keine solche Zelle in Schritt {0}, {1}',
  'its end': 'an sein Ende',
  'line {0}': 'Zeile {0}',
  'Processors, and what each asks for in the next step':
    'Die Prozessoren, und was jeder im nächsten Schritt verlangt',
  'Its answer: a conflict in step {0} at {1}, between processors {2} and {3}.':
    'Die Antwort: ein Konflikt in Schritt {0}, Stelle: {1}, zwischen den Prozessoren {2} und {3}.',
  'Its answer: a conflict in line {0} at {1}, between processors {2} and {3}.':
    'Die Antwort: ein Konflikt in Zeile {0}, Stelle: {1}, zwischen den Prozessoren {2} und {3}.',
  'The page is out of memory.': 'Der Seite fehlt Speicher.',
  'Its answer: done after {0} step.{1}': 'Die Antwort: fertig nach {0} Schritt.{1}',
  'Its answer: done after {0} steps.{1}': 'Die Antwort: fertig nach {0} Schritten.{1}',
  'Its answer is more than {0} steps away, too far for this page: “pramx plain” goes on.':
    'Die Antwort ist mehr als {0} Schritte entfernt, zu weit für diese Seite: „pramx plain“ ' +
    'geht weiter.',
  'Its answer is more than {0} steps away, and is being made.':
    'Die Antwort ist mehr als {0} Schritte entfernt und wird gerade ermittelt.',
  '{0}, {1}, {2}, rule {3}. {4}': '{0}, {1}, {2}, Regel {3}. {4}',
  '{0} cell': '{0} Zelle',
  '{0} cells': '{0} Zellen',
  '{0} processor': '{0} Prozessor',
  '{0} processors': '{0} Prozessoren',
  'The page shows up to {0} processors, and here are {1}: “pramx” takes them.':
    'Die Seite zeigt bis zu {0} Prozessoren, und hier sind es {1}: „pramx“ nimmt sie.',
  'Line {0}: {1}': 'Zeile {0}: {1}',
  'A text has at most {0} bytes.': 'Ein Text hat höchstens {0} Bytes.',
  ['The lines before “code” are: pardo 1, then rule common, rule priority or rule crew; and ' +
    'then, in any order, const NAME = VALUE, just one procs NAME < COUNT, shared NAME or ' +
    'shared NAME[COUNT] with “= values” or without, private NAME after procs.']:
    'Die Zeilen vor „code“ sind: pardo 1, dann rule common, rule priority oder rule crew; und ' +
    'dann, in beliebiger Reihenfolge, const NAME = VALUE, genau ein procs NAME < COUNT, shared ' +
    'NAME oder shared NAME[COUNT] mit „= values“ oder ohne, private NAME nach procs.',
  ['A line of code is NAME := VALUE, NAME[INDEX] := VALUE, if CONDITION, elsif CONDITION, ' +
    'else, end, while CONDITION, for NAME = FIRST to LAST, or the same with downto, assert ' +
    'CONDITION.']:
    'Eine Codezeile ist NAME := VALUE, NAME[INDEX] := VALUE, if CONDITION, elsif CONDITION, ' +
    'else, end, while CONDITION, for NAME = FIRST to LAST oder dasselbe mit downto, assert ' +
    'CONDITION.',
  'It is “^”: a power of two is 1 << h, exclusive or is xor.':
    'Es ist „^“: Eine Zweierpotenz ist 1 << h, das ausschließende Oder ist xor.',
  ['An array needs an index and a scalar has none; no value goes to a constant, to the own ' +
    'number or to a loop’s variable; loops go by what is the same for all processors.']:
    'Ein Feld braucht einen Index, und ein Skalar hat keinen; kein Wert geht an eine ' +
    'Konstante, an die eigene Nummer oder an die Variable einer Schleife; Schleifen richten ' +
    'sich nach dem, was für alle Prozessoren gleich ist.',
  'Numbers go up to 4,294,967,295, processors to 65,536, places of an array to 1,048,576.':
    'Zahlen gehen bis 4,294,967,295, Prozessoren bis 65,536, Stellen eines Feldes bis 1,048,576.',
  'A private variable, a depth of loops and a depth of ifs each take one for each processor.':
    'Eine private Variable, eine Tiefe von Schleifen und eine Tiefe von ifs brauchen je eine ' +
    'für jeden Prozessor.',
  'Each if, while and for needs an end.': 'Jedes if, while und for braucht ein end.',
  ['Lines for which three registers are too few have hidden lines before them. These need ' +
    'private variables without a name: as many as the line with most hidden lines has.']:
    'Zeilen, für die drei Register zu wenige sind, haben verborgene Zeilen vor sich. Diese ' +
    'brauchen private Variablen ohne Namen: so viele, wie die Zeile mit den meisten ' +
    'verborgenen Zeilen hat.',
  'Does what its loop goes by ever change? A processor that is not in an if changes nothing there.':
    'Ändert sich je, wonach sich die Schleife richtet? Ein Prozessor, der nicht in einem if ' +
    'ist, ändert dort nichts.',
  'gone: line {0} has no such place': 'ausgefallen: Zeile {0} hat keine solche Stelle',
  'Processors in the line that is next': 'Die Prozessoren in der nächsten Zeile',
  'in this line': 'in dieser Zeile',
  nobody: 'niemand',
  'one is enough': 'einer genügt',
  ['Lose two of the three workers for good, each after a step of its own, and let the job ' +
    'come to its end.']:
    'Verlieren Sie zwei der drei Arbeiter für immer, jeden nach einem eigenen Schritt, und ' +
    'lassen Sie den Auftrag zu seinem Ende kommen.',
  'too late': 'zu spät',
  ['Let a worker come too late to swap a word: it sleeps right before its swap, the others do ' +
    'its part, and it wakes.']:
    'Lassen Sie einen Arbeiter zu spät kommen, um ein Wort auszutauschen: Er schläft kurz vor ' +
    'seinem Austausch ein, die anderen tun seinen Teil, und er wacht auf.',
  'asleep through two steps': 'zwei Schritte verschlafen',
  ['Let a worker sleep while the others finish two steps of the machine. Then wake it, and ' +
    'let it be the one that finishes a later step.']:
    'Lassen Sie einen Arbeiter schlafen, während die anderen zwei Schritte der Maschine fertig ' +
    'machen. Wecken Sie ihn dann, und lassen Sie ihn den sein, der einen späteren Schritt ' +
    'fertig macht.',
  'Solved, in {0} acts.': 'Gelöst, mit {0} Ereignissen.',
  'Not yet: no such thing happened.': 'Noch nicht: So etwas ist nicht geschehen.',
  'moment {0} of {1}': 'Moment {0} von {1}',
  '{0} of {1}': '{0} von {1}',
  'loop {0} of P{1}': 'Schleife {0}, P{1}',
  'mask {0} of P{1}': 'Maske {0}, P{1}',
  'kept {0} of P{1}': 'Merker {0}, P{1}',
  '{0} of P{1}': '{0} von P{1}',
  'To line {0}': 'Bis zu Zeile {0}',
  'No stop at line {0}': 'Kein Halt in Zeile {0}',
  'Stop at line {0}': 'Halt in Zeile {0}',
  'one program, four processors': 'ein Programm, vier Prozessoren',
  ['Four processors run the same program on common memory, line by line together. It sums ' +
    'eight values. Click “Step” some times: the arrow in the text shows where all are, those ' +
    'that are lit take part in the line, and arrows show who reads and who writes.']:
    'Vier Prozessoren führen dasselbe Programm auf gemeinsamem Speicher aus, Zeile für Zeile ' +
    'miteinander. Es summiert acht Werte. Klicken Sie einige Male auf „Schritt“: Der Pfeil im ' +
    'Text zeigt, wo alle sind, die hervorgehobenen nehmen an der Zeile teil, und Pfeile ' +
    'zeigen, wer liest und wer schreibt.',
  'reads before writes': 'erst lesen, dann schreiben',
  ['In each line all reads come before all writes. So the result depends on nobody’s speed. A ' +
    'line is some steps of the machine: “the machine’s steps” shows them. Below, the plot has ' +
    'all of them; a click goes there. Under it stands what the run costs.']:
    'In jeder Zeile kommen alle Lesezugriffe vor allen Schreibzugriffen. So hängt das Ergebnis ' +
    'von niemandes Tempo ab. Eine Zeile besteht aus einigen Schritten der Maschine: „die ' +
    'Schritte der Maschine“ zeigt sie. Unten hat das Diagramm alle; ein Klick führt dorthin. ' +
    'Darunter steht, was der Lauf kostet.',
  'nobody has such a machine': 'niemand hat so eine Maschine',
  ['Real threads stop, sleep and die at any moment. Here three workers do the work of the ' +
    'four processors, by atomic steps on common words: each step of the machine, and so each ' +
    'line. Click “Step all” some times: each walks through the tree, from leaf to leaf.']:
    'Wirkliche Threads halten an, schlafen und sterben in jedem Moment. Hier tun drei Arbeiter ' +
    'die Arbeit der vier Prozessoren, durch atomare Schritte auf gemeinsamen Wörtern: jeden ' +
    'Schritt der Maschine, und so jede Zeile. Klicken Sie einige Male auf „Alle einen ' +
    'Schritt“: Jeder geht durch den Baum, von Blatt zu Blatt.',
  'the tree': 'der Baum',
  ['A leaf is a processor. Each step of the machine has passes over all leaves; a node is ' +
    'coloured when all below it is done. Who comes to a node that is done goes elsewhere, and ' +
    'who finds the root done begins the next pass. Nobody waits.']:
    'Ein Blatt ist ein Prozessor. Jeder Schritt der Maschine hat Durchgänge über alle Blätter; ' +
    'ein Knoten ist gefärbt, wenn alles unter ihm fertig ist. Wer zu einem fertigen Knoten ' +
    'kommt, geht anderswohin, und wer die Wurzel fertig findet, beginnt den nächsten ' +
    'Durchgang. Niemand wartet.',
  'a worker is lost': 'ein Arbeiter geht verloren',
  ['Worker 2 is lost in the midst of processor 3’s part: the register is written, the counter ' +
    'is not, and the leaf P3 is not marked. Nobody is told. What will the others do? Click ' +
    '“Step all” some ten times, and read in the list of atomic steps what they do at that leaf.']:
    'Arbeiter 2 geht mitten im Teil von Prozessor 3 verloren: Das Register ist geschrieben, ' +
    'der Befehlszähler nicht, und das Blatt P3 ist nicht markiert. Niemand erfährt davon. Was ' +
    'werden die anderen tun? Klicken Sie etwa zehnmal auf „Alle einen Schritt“, und lesen Sie ' +
    'in der Liste der atomaren Schritte, was sie an diesem Blatt tun.',
  'the others do its part': 'die anderen tun seinen Teil',
  ['The others found its leaf not done, and did its part; what was written already stayed. ' +
    'The first step is finished, and “Next finished step” shows each further one. Go back with ' +
    'the slider and lose a worker elsewhere: try any moment at all.']:
    'Die anderen fanden sein Blatt nicht fertig und taten seinen Teil; was schon geschrieben ' +
    'war, blieb. Der erste Schritt ist fertig, und „Nächster fertiger Schritt“ zeigt jeden ' +
    'weiteren. Gehen Sie mit dem Schieber zurück und verlieren Sie anderswo einen Arbeiter: ' +
    'Versuchen Sie jeden beliebigen Moment.',
  'it slept, and is late': 'er schlief und ist spät dran',
  ['A lost worker does nothing more. One that slept does: worker 2 wakes, as if no time had ' +
    'passed, and goes on with what it meant to do then. Step it six times and more: it finds ' +
    'its words written and its leaf raised already, changes nothing, and walks on.']:
    'Ein verlorener Arbeiter tut nichts mehr. Einer, der schlief, schon: Arbeiter 2 wacht auf, ' +
    'als wäre keine Zeit vergangen, und macht mit dem weiter, was er damals vorhatte. Lassen ' +
    'Sie ihn sechs Schritte und mehr machen: Er findet seine Wörter schon geschrieben und sein ' +
    'Blatt schon erhöht, ändert nichts und geht weiter.',
  'back, knowing nothing': 'zurück, ohne etwas zu wissen',
  ['Worker 2 comes back. All it has is one word: where it stood. Step it: it reads that, then ' +
    'the root, and works on at its leaf.']:
    'Arbeiter 2 kommt zurück. Alles, was er hat, ist ein Wort: wo er stand. Lassen Sie ihn ' +
    'Schritte machen: Er liest das, dann die Wurzel, und arbeitet an seinem Blatt weiter.',
  'one of three goes on': 'einer von dreien macht weiter',
  ['Now two of three are lost. Click “To the end”: one worker is enough, and the answer is ' +
    'the plain machine’s. That holds for every program, each number of workers and any ' +
    'schedule: it is proved. Next: the exercises, and “Find a schedule”.']:
    'Jetzt sind zwei von dreien verloren. Klicken Sie auf „Bis zum Ende“: Ein Arbeiter genügt, ' +
    'und die Antwort ist die der einfachen Maschine. Das gilt für jedes Programm, jede Zahl ' +
    'von Arbeitern und jeden Ablauf: Es ist bewiesen. Als Nächstes: die Aufgaben, und „Einen ' +
    'Ablauf finden“.',
  'All steps are finished.': 'Alle Schritte sind fertig.',
  'Step {0} is against the rule.': 'Schritt {0} ist gegen die Regel.',
  'Phase {1} (step {2}, {3}): {4} of {0} node are finished.':
    'Phase {1} (Schritt {2}, {3}): {4} von {0} Knoten fertig.',
  'Phase {1} (step {2}, {3}): {4} of {0} nodes are finished.':
    'Phase {1} (Schritt {2}, {3}): {4} von {0} Knoten fertig.',
  'The progress tree. {0}': 'Der Fortschrittsbaum. {0}',
  'to {0} of {1}': 'bis {0} von {1}',
  lost: 'verloren',
  over: 'am Ende',
  asleep: 'schläft',
  awake: 'wach',
  Step: 'Schritt',
  Wake: 'Wecken',
  Sleep: 'Schlafen',
  Return: 'Zurück',
  Lose: 'Verlieren',
  Twin: 'Zwilling',
  'If lost?': 'Wenn weg?',
  'What if it is lost here, and the others go on to the end?':
    'Was, wenn er hier verloren geht und die anderen bis zum Ende weitermachen?',
  'What if {1} is lost at moment {2}? The others make {0} atomic step more.':
    'Was, wenn {1} in Moment {2} verloren geht? Die anderen machen noch {0} atomaren Schritt.',
  'What if {1} is lost at moment {2}? The others make {0} atomic steps more.':
    'Was, wenn {1} in Moment {2} verloren geht? Die anderen machen noch {0} atomare Schritte.',
  'Cells as a reader gets them': 'Die Zellen, wie ein Leser sie bekommt',
  'On the way. Any other click ends it here.': 'Unterwegs. Jeder andere Klick beendet es hier.',
  'Finished: {1} of {0} step.': 'Fertig: {1} von {0} Schritt.',
  'Finished: {1} of {0} steps.': 'Fertig: {1} von {0} Schritten.',
  'a character here is neither printable ASCII nor a tab':
    'ein Zeichen hier ist weder druckbares ASCII noch ein Tabulator',
  'a line of the header is wrong, missing or repeated':
    'eine Kopfzeile ist falsch, fehlt oder steht doppelt',
  'a number must stand here, in digits alone': 'hier muss eine Zahl stehen, nur aus Ziffern',
  'a number is outside its limits': 'eine Zahl liegt außerhalb ihrer Grenzen',
  'no instruction stands here': 'hier steht kein Befehl',
  'the instruction has too few operands, or too many':
    'der Befehl hat zu wenige Operanden oder zu viele',
  'no register stands here (r0 to r3), nor what may stand for one':
    'hier steht kein Register (r0 bis r3) und nichts, was für eines stehen darf',
  'an earlier line defines this label': 'eine frühere Zeile setzt diese Marke schon',
  'no line defines the label of this jump': 'keine Zeile setzt die Marke dieses Sprungs',
  'no instruction follows the line code': 'nach der Zeile code folgt kein Befehl',
  'a program has at most 4,096 instructions': 'ein Programm hat höchstens 4,096 Befehle',
  'a character here has no meaning': 'ein Zeichen hier hat keine Bedeutung',
  'something is missing here, left over, or in the wrong place':
    'hier fehlt etwas, ist zu viel oder steht am falschen Platz',
  'a name here is not known': 'ein Name hier ist nicht bekannt',
  'the name that is declared here is known already':
    'der Name, der hier vereinbart wird, ist schon bekannt',
  'a name here stands for something that has no place here':
    'ein Name hier steht für etwas, das nicht hierher gehört',
  'a number is outside its limits, or something is divided by 0':
    'eine Zahl liegt außerhalb ihrer Grenzen, oder etwas wird durch 0 geteilt',
  'the array gets too many values, or too few without ...':
    'das Feld bekommt zu viele Werte, oder zu wenige ohne ...',
  'a program has at most 1,048,576 cells': 'ein Programm hat höchstens 1,048,576 Zellen',
  'this else or end belongs to nothing': 'dieses else oder end gehört zu nichts',
  'more than 32 brackets are open': 'mehr als 32 Klammern sind offen',
  'the text ends here, and a block is not closed':
    'hier endet der Text, und ein Block ist nicht geschlossen',
  'no line of code follows the line code': 'nach der Zeile code folgt keine Codezeile',
  'three registers are too few for an expression of a loop: use a scalar':
    'drei Register sind zu wenige für einen Ausdruck einer Schleife: Nehmen Sie einen Skalar',
  'the program is still here after 1,048,576 steps, or 2^30 in all':
    'das Programm ist nach 1,048,576 Schritten, oder 2^30 insgesamt, immer noch hier',
  'with its hidden lines a program has at most 1,048,576 cells':
    'mit seinen verborgenen Zeilen hat ein Programm höchstens 1,048,576 Zellen',
  'At {0}: {1}.': 'Bei {0}: {1}.',
  'Its first {0} rows are shown.': 'Die ersten {0} Zeilen werden gezeigt.',
  '“:=” assigns, “=” compares.': '„:=“ weist zu, „=“ vergleicht.',
  '{0}: {1}.': '{0}: {1}.',
  'the text is too long': 'der Text ist zu lang',
};
