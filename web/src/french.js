// The texts of the page in French, by their English words.
export const FRENCH = {
  'PRAM playground': 'Bac à sable PRAM',
  'What is proved, and what is only shown': 'Ce qui est prouvé, et ce qui est seulement montré',
  'Proved:': 'Prouvé :',
  'Only shown:': 'Seulement montré :',
  ['{0} the machine’s job of each program, and every answer, state, request, conflict, atomic ' +
    'step and read that is shown, come from the proved core of this repository. {1} drawings, ' +
    'wordings and the schedule, which are this page’s own. Trusted besides are how the core ' +
    'was made for browsers, its allocator, the browser, and this page’s JavaScript: {2} of the ' +
    'repository says so at length, and {3} what is proved.']:
    '{0} la tâche de la machine pour chaque programme, et tous les états, réponses, demandes, ' +
    'conflits, étapes atomiques et lectures qui sont montrés, viennent du noyau prouvé de ce ' +
    'dépôt. {1} les dessins, les formulations et l’ordonnancement, qui sont propres à cette ' +
    'page. On se fie en outre à la façon dont le noyau a été fait pour les navigateurs, à son ' +
    'allocateur, au navigateur et au JavaScript de cette page : {2} du dépôt le dit en détail, ' +
    'et {3} dit ce qui est prouvé.',
  Learn: 'Apprendre',
  'A tour, exercises and puzzles': 'Une visite, des exercices et des énigmes',
  Keys: 'Touches',
  Home: 'Début',
  End: 'Fin',
  Space: 'Espace',
  Ctrl: 'Ctrl',
  Tab: 'Tab',
  '{0} Keys act without {1}': '{0} Les touches agissent sans {1}',
  ['{0} and {1} go a step back and on, of a program a line, {2} and {3} to the start and the ' +
    'end, {4} plays and pauses, {5} {6} undoes and {7} {8} redoes. In lockstep {9} and {10} go ' +
    'to the next and the previous memory access, {11} to the next stop. By workers {12} steps ' +
    'all, {13} to {14} step one, {15} goes to the next change of a word, {16} to the next ' +
    'finished step. {17} reaches every control. {18}']:
    '{0} et {1} reculent et avancent d’une étape, d’une ligne dans un programme, {2} et {3} ' +
    'vont au début et à la fin, {4} lance et met en pause, {5} {6} annule et {7} {8} rétablit. ' +
    'En synchrone, {9} et {10} vont à l’accès mémoire suivant et précédent, {11} au prochain ' +
    'arrêt. Par travailleurs, {12} fait avancer tous d’une étape, {13} à {14} un seul, {15} va ' +
    'au prochain changement d’un mot, {16} à la prochaine étape finie. {17} atteint chaque ' +
    'commande. {18}',
  Language: 'Langue',
  'Hand in': 'Rendre',
  'save the solved exercises as one file': 'enregistrer les exercices résolus dans un fichier',
  Judge: 'Juger',
  'Try this input': 'Essayer cette entrée',
  'Begin anew': 'Recommencer',
  '◀ Before': '◀ Précédent',
  'Next ▶': 'Suivant ▶',
  Close: 'Fermer',
  Program: 'Programme',
  Undo: 'Annuler',
  'undo the change of the text': 'annuler la modification du texte',
  Redo: 'Rétablir',
  'redo the change of the text': 'rétablir la modification du texte',
  Save: 'Enregistrer',
  Reference: 'Référence',
  ['A PRAM has many processors that share one memory and go in lockstep: in each step each ' +
    'of them carries out one instruction, and all read before any writes. Its rule of ' +
    'writing says what happens where several write to one place.']:
    'Une PRAM a de nombreux processeurs qui partagent une mémoire et avancent au même pas : ' +
    'à chaque étape, chacun exécute une instruction, et tous lisent avant que l’un n’écrive. ' +
    'Sa règle d’écriture dit ce qui se passe quand plusieurs écrivent au même endroit.',
  Open: 'Ouvrir',
  'open a file': 'ouvrir un fichier',
  '{0} is open.': '{0} est ouvert.',
  '{0} has more than 64 MB, which no text may have.':
    '{0} dépasse 64 Mo, ce qu’aucun texte ne peut avoir.',
  '{0} is no text: its bytes are not UTF-8.': '{0} n’est pas un texte : ses octets ne sont pas de l’UTF-8.',
  '{0} cannot be read.': '{0} ne peut pas être lu.',
  'save the text as a file': 'enregistrer le texte dans un fichier',
  'Copy link': 'Copier le lien',
  'Program: your own, or one of the gallery': 'Programme : un des vôtres, ou un de la galerie',
  'The text of the program': 'Le texte du programme',
  'No stops': 'Aucun arrêt',
  ['Not all of your programs fit into what this browser keeps for the page: save those as ' +
    'files that you want to have again.']:
    'Tous vos programmes ne tiennent pas dans ce que ce navigateur garde pour la page : ' +
    'enregistrez dans des fichiers ceux que vous voulez retrouver.',
  'The link': 'Le lien',
  'The machine is shown once the program has no fault.':
    'La machine est montrée dès que le programme n’a pas d’erreur.',
  'Write “{0}”': 'Écrire « {0} »',
  'The machine stays on the last text that had no fault.':
    'La machine en reste au dernier texte sans erreur.',
  'In lockstep': 'En synchrone',
  'By workers': 'Par travailleurs',
  Views: 'Vues',
  'to the start': 'au début',
  '◀ Back': '◀ Retour',
  'after step': 'après l’étape',
  'Step ▶': 'Étape ▶',
  'to the end': 'à la fin',
  '◀◀ Access': '◀◀ Accès',
  'previous memory access': 'accès mémoire précédent',
  'Access ▶▶': 'Accès ▶▶',
  'next memory access': 'accès mémoire suivant',
  'To a stop': 'Jusqu’à un arrêt',
  'to the next stop': 'jusqu’au prochain arrêt',
  '▶ Play': '▶ Lecture',
  'steps a second': 'étapes par seconde',
  '{0} the machine’s steps': '{0} les étapes de la machine',
  'Memory, and who reads and writes it in the next step':
    'La mémoire, et qui la lit et l’écrit à la prochaine étape',
  'is read': 'est lue',
  'will be written': 'sera écrite',
  'was written just now': 'vient d’être écrite',
  disputed: 'disputée',
  'Save picture': 'Enregistrer l’image',
  Steps: 'Étapes',
  'at work': 'au travail',
  'read a cell': 'lisent une cellule',
  'write a cell': 'écrivent une cellule',
  'go to a step': 'aller à une étape',
  'Costs and model': 'Coûts et modèle',
  Processors: 'Processeurs',
  'workers {0}': 'travailleurs {0}',
  'Step all': 'Une étape chacun',
  'step all 10 times': '10 fois une étape chacun',
  'step all 100 times': '100 fois une étape chacun',
  'Next change': 'Prochain changement',
  'to the next change of a word': 'au prochain changement d’un mot',
  'Next finished step': 'Prochaine étape finie',
  'to the next finished step': 'à la prochaine étape finie',
  'To the end': 'Jusqu’à la fin',
  'rounds a second': 'tours par seconde',
  'undo the change of the schedule': 'annuler la modification de l’ordonnancement',
  'redo the change of the schedule': 'rétablir la modification de l’ordonnancement',
  'Start again': 'Repartir de zéro',
  'one moment back': 'un moment en arrière',
  moment: 'moment',
  'one moment on': 'un moment en avant',
  'to the last moment': 'au dernier moment',
  'moment {0}': 'moment {0}',
  'Back to what was': 'Revenir à ce qui était',
  'The schedule is full: a page holds 400,000 acts.':
    'L’ordonnancement est plein : une page contient 400,000 actes.',
  'Progress tree': 'Arbre d’avancement',
  'finished last below:': 'fini en dernier au-dessous :',
  compact: 'compacte',
  wide: 'large',
  ['This is the {0} form of the board, as in {1}: a leaf for each processor. {2} and {3} use ' +
    'the {4} form, where a leaf stands for up to 64 processors and workers start far apart. ' +
    'The number in a node is the phase that is finished below it.']:
    'C’est la forme {0} du panneau, comme dans {1} : une feuille par processeur. {2} et {3} ' +
    'emploient la forme {4}, où une feuille vaut pour 64 processeurs au plus et où les ' +
    'travailleurs partent loin les uns des autres. Le nombre dans un nœud est la phase qui est ' +
    'finie au-dessous.',
  'Cells as a reader gets them, each with its step':
    'Les cellules telles qu’un lecteur les reçoit, chacune avec son étape',
  'The two words of a place': 'Les deux mots d’un emplacement',
  cell: 'cellule',
  'register of processor': 'registre d’un processeur',
  'counter of processor': 'compteur d’un processeur',
  'place {0}': 'emplacement {0}',
  'number {0}': 'numéro {0}',
  'register {0}': 'registre {0}',
  'Changes of the place': 'Changements de l’emplacement',
  'Atomic steps, the newest first': 'Étapes atomiques, la plus récente d’abord',
  'None yet.': 'Aucune encore.',
  'Later ones': 'Plus récentes',
  'Atomic steps': 'Étapes atomiques',
  'Earlier ones': 'Plus anciennes',
  'An adversary': 'Un adversaire',
  ['Whatever it does, the answer is the plain machine’s: that is the theorem. What it finds ' +
    'here is evidence.']:
    'Quoi qu’il fasse, la réponse est celle de la machine simple : c’est le théorème. Ce qu’il ' +
    'trouve ici en est un indice.',
  'Random schedule': 'Ordonnancement au hasard',
  'seed {0}': 'graine {0}',
  'how mean {0}': 'méchanceté {0}',
  'kind: some sleep for a while': 'gentil : certains dorment un moment',
  'mean: some are lost, too': 'méchant : certains sont aussi perdus',
  'cruel: they are lost again and again': 'cruel : ils sont perdus encore et encore',
  'The schedule is full before the job ends.':
    'L’ordonnancement est plein avant la fin de la tâche.',
  'The answer is the plain machine’s.': 'La réponse est celle de la machine simple.',
  'ANOTHER ANSWER THAN the plain machine’s.':
    'UNE AUTRE RÉPONSE QUE celle de la machine simple.',
  'Seed {0}, {1}.': 'Graine {0}, {1}.',
  'Atomic steps: {0}. Losses: {1}. Returns: {2}. Sleeps: {3}.':
    'Étapes atomiques : {0}. Pertes : {1}. Retours : {2}. Sommeils : {3}.',
  'A click ended it.': 'Un clic l’a arrêté.',
  'Acts so far: {0}.': 'Actes jusqu’ici : {0}.',
  'worst moments to lose each worker': 'pires moments pour perdre chaque travailleur',
  'Worst moments': 'Pires moments',
  'from here on, each worker but one is lost; within 2,000 schedules and 10 seconds':
    'à partir d’ici, chaque travailleur sauf un est perdu ; en 2,000 ordonnancements et 10 ' +
    'secondes au plus',
  'Schedules tried: {0}.': 'Ordonnancements essayés : {0}.',
  ['{0}, lost at moment {1}: those who are left make {2} atomic steps from here on, and {3} if ' +
    'the moment is the kindest. Moments tried: {4} of {5}.']:
    '{0}, perdu au moment {1} : ceux qui restent font {2} étapes atomiques à partir d’ici, et ' +
    '{3} au moment le plus clément. Moments essayés : {4} sur {5}.',
  'Fewer than two workers are going: nobody is to be lost.':
    'Moins de deux travailleurs avancent : personne n’est à perdre.',
  'All schedules': 'Tous les ordonnancements',
  '{0} worker 1 may be lost': '{0} le travailleur 1 peut être perdu',
  'Show the slowest': 'Montrer le plus lent',
  'Take a small program': 'Prendre un petit programme',
  'a small program': 'un petit programme',
  'States met so far: {0}.': 'États rencontrés jusqu’ici : {0}.',
  ['Not all schedules were met: it ended after {0} states, which is what a page holds. Try ' +
    'fewer workers, or a smaller program.']:
    'Tous n’ont pas été rencontrés : arrêt après {0} états, ce que contient une page. Essayez ' +
    'avec moins de travailleurs, ou un programme plus petit.',
  'Different ends met: {0}.': 'Fins différentes rencontrées : {0}.',
  'Each has the plain machine’s answer: the core replayed a schedule to it.':
    'Chacune a la réponse de la machine simple : le noyau a rejoué un ordonnancement qui y mène.',
  'NOT EACH HAS the plain machine’s answer.': 'CERTAINES N’ONT PAS la réponse de la machine simple.',
  ['All schedules: {0}. States, each met once: {1}. Different atomic steps, each told by the ' +
    'core: {2}.']:
    'Tous les ordonnancements : {0}. États, chacun rencontré une fois : {1}. Étapes atomiques ' +
    'différentes, chacune dite par le noyau : {2}.',
  'Different ends: {0}.': 'Fins différentes : {0}.',
  'The shortest schedule has {0} atomic steps, the slowest {1}.':
    'L’ordonnancement le plus court a {0} étapes atomiques, le plus lent {1}.',
  'Take the schedule home: a plan for {0}': 'Emporter l’ordonnancement : un plan pour {0}',
  'Save plan.csv': 'Enregistrer plan.csv',
  'The plan': 'Le plan',
  'The machine': 'La machine',
  'The whole page, with the program': 'La page entière, avec le programme',
  active: 'actif',
  waits: 'attend',
  gone: 'parti',
  done: 'fini',
  'an act of a schedule is unknown': 'un acte d’un ordonnancement est inconnu',
  'no such worker': 'il n’y a pas de tel travailleur',
  'too many twins': 'trop de jumeaux',
  'a schedule is not written so': 'un ordonnancement ne s’écrit pas ainsi',
  'too many acts': 'trop d’actes',
  '{0} is out of its limits': '{0} est hors de ses limites',
  'there is no such example': 'il n’y a pas de tel exemple',
  '{0}, and other lines': '{0}, et d’autres lignes',
  'from cell {0}': 'à partir de la cellule {0}',
  'earlier cells': 'cellules précédentes',
  'later cells': 'cellules suivantes',
  ['This run needs {0}. With other values at the start the same program may cost more, and ' +
    'need a stronger model.']:
    'Cette exécution demande {0}. Avec d’autres valeurs au départ, le même programme peut ' +
    'coûter plus et demander un modèle plus fort.',
  ['A model is judged by the steps of the machine, of which a line is several: two who read ' +
    'one place in a line may read it in different steps.']:
    'Un modèle se juge aux étapes de la machine, dont une ligne compte plusieurs : deux ' +
    'processeurs qui lisent un même emplacement dans une ligne peuvent le lire à des étapes ' +
    'différentes.',
  steps: 'étapes',
  processors: 'processeurs',
  Growth: 'Croissance',
  'constant {0}': 'constante {0}',
  'values {0}': 'valeurs {0}',
  'Try them': 'Essayer',
  'A conflict ends it.': 'Un conflit y met fin.',
  'There is no such program, or it is too large.':
    'Un tel programme n’existe pas, ou il est trop grand.',
  'The values are numbers, at most {0} of them.': 'Les valeurs sont des nombres, au plus {0}.',
  'All values were tried.': 'Toutes les valeurs ont été essayées.',
  '{0} = {1} is tried.': '{0} = {1} est à l’essai.',
  'processors times steps': 'processeurs fois étapes',
  'their product': 'leur produit',
  'instructions executed': 'instructions exécutées',
  'most processors at work': 'processeurs au travail, au plus',
  'steps with a read': 'étapes avec lecture',
  'steps with a write': 'étapes avec écriture',
  'Not {0}: in step {1} processors {2} and {3} read {4}.':
    'Pas {0} : à l’étape {1}, les processeurs {2} et {3} lisent {4}.',
  'Not {0}: in step {1} processors {2} and {3} write {4}.':
    'Pas {0} : à l’étape {1}, les processeurs {2} et {3} écrivent {4}.',
  'Not {0}: in step {1} processors {2} and {3} write different values to {4}.':
    'Pas {0} : à l’étape {1}, les processeurs {2} et {3} écrivent des valeurs différentes dans ' +
    '{4}.',
  'Not {0}: in line {5}, step {1}, processors {2} and {3} read {4}.':
    'Pas {0} : à la ligne {5}, étape {1}, les processeurs {2} et {3} lisent {4}.',
  'Not {0}: in line {5}, step {1}, processors {2} and {3} write {4}.':
    'Pas {0} : à la ligne {5}, étape {1}, les processeurs {2} et {3} écrivent {4}.',
  'Not {0}: in line {5}, step {1}, processors {2} and {3} write different values to {4}.':
    'Pas {0} : à la ligne {5}, étape {1}, les processeurs {2} et {3} écrivent des valeurs ' +
    'différentes dans {4}.',
  'from line {0}': 'à partir de la ligne {0}',
  'earlier lines': 'lignes précédentes',
  'later lines': 'lignes suivantes',
  'Stop here, or no more': 'S’arrêter ici, ou ne plus s’y arrêter',
  'To this line': 'Jusqu’à cette ligne',
  'It ended with {0} processor still running (P{1} in line {2}).':
    'À la fin, {0} processeur tournait encore (P{1} à la ligne {2}).',
  'It ended with {0} processors still running (P{1} in line {2}).':
    'À la fin, {0} processeurs tournaient encore (P{1} à la ligne {2}).',
  'All had stopped after step {0}.': 'Tous s’étaient arrêtés après l’étape {0}.',
  'Processor {0} stopped in step {1} at line {2}: no such cell.':
    'Le processeur {0} s’est arrêté à l’étape {1}, ligne {2} : cette cellule n’existe pas.',
  'Processor {0} stopped in step {1} at line {2}: its array has no such place.':
    'Le processeur {0} s’est arrêté à l’étape {1}, ligne {2} : son tableau n’a pas cette place.',
  'own numbers': 'son propre numéro',
  'A[i] becomes i.': 'A[i] devient i.',
  double: 'doubler',
  'B[i] becomes twice A[i], modulo 2^32.': 'B[i] devient le double de A[i], modulo 2^32.',
  reverse: 'inverser',
  'B becomes A in reverse: B[0] is A[n - 1].': 'B devient A à l’envers : B[0] est A[n - 1].',
  neighbours: 'voisins',
  'B[i] becomes A[i] + A[i + 1], and B[n - 1] becomes A[n - 1] + A[0], modulo 2^32.':
    'B[i] devient A[i] + A[i + 1], et B[n - 1] devient A[n - 1] + A[0], modulo 2^32.',
  broadcast: 'diffusion',
  'Each A[i] becomes A[0]. No two may read it in one step: copies make copies.':
    'Chaque A[i] devient A[0]. Jamais deux ne peuvent le lire à la même étape : les copies ' +
    'font des copies.',
  'is a seven among them': 'y a-t-il un sept',
  'found becomes 1 if some A[i] is 7, and else stays 0.':
    'found devient 1 si un A[i] est 7, et sinon reste 0.',
  sum: 'somme',
  'total becomes the sum of all A[i], modulo 2^32. n is a power of two. A may change.':
    'total devient la somme de tous les A[i], modulo 2^32. n est une puissance de deux. A peut ' +
    'changer.',
  maximum: 'maximum',
  'greatest becomes the greatest of all A[i]. n is a power of two. A may change.':
    'greatest devient le plus grand de tous les A[i]. n est une puissance de deux. A peut changer.',
  'prefix sums': 'sommes préfixes',
  'A[i] becomes A[0] + .. + A[i], modulo 2^32. n is a power of two.':
    'A[i] devient A[0] + .. + A[i], modulo 2^32. n est une puissance de deux.',
  'ranks in a list': 'rangs dans une liste',
  ['N[i] is the element after i in a list, and of its last one that itself. R[i] becomes how ' +
    'many come after i. N may change.']:
    'N[i] est l’élément après i dans une liste, et pour le dernier lui-même. R[i] devient le ' +
    'nombre de ceux qui viennent après i. N peut changer.',
  'sums in segments': 'sommes par segments',
  ['Where F[i] is 1 a segment begins, and at A[0], too; else F[i] is 0. A[i] becomes the sum ' +
    'of its segment\'s values up to A[i], modulo 2^32. F may change.']:
    'Là où F[i] est 1 commence un segment, et aussi en A[0] ; sinon F[i] est 0. A[i] devient ' +
    'la somme des valeurs de son segment jusqu’à A[i], modulo 2^32. F peut changer.',
  compaction: 'compactage',
  ['The values of A that are not 0 go to the front of B, in their order; count becomes how ' +
    'many they are. The other places of B stay 0. n is a power of two.']:
    'Les valeurs de A qui ne sont pas 0 vont au début de B, dans leur ordre ; count devient ' +
    'leur nombre. Les autres places de B restent 0. n est une puissance de deux.',
  'prefix sums by few': 'sommes préfixes à quelques-uns',
  ['A[i] becomes A[0] + .. + A[i], modulo 2^32, of n values by p processors; n is a multiple ' +
    'of p. Each processor makes about as many additions as it has values.']:
    'A[i] devient A[0] + .. + A[i], modulo 2^32, pour n valeurs par p processeurs ; n est un ' +
    'multiple de p. Chaque processeur fait à peu près autant d’additions qu’il a de valeurs.',
  'maximum in constant time': 'maximum en temps constant',
  'greatest becomes the greatest of all A[i]. There is a processor for each pair of values.':
    'greatest devient le plus grand de tous les A[i]. Il y a un processeur pour chaque paire ' +
    'de valeurs.',
  'merge of two rows': 'fusion de deux suites',
  ['A and B are sorted, each from its least value to its greatest. C becomes all their ' +
    'values, sorted. n is a power of two.']:
    'A et B sont triés, chacun de sa plus petite valeur à la plus grande. C devient toutes ' +
    'leurs valeurs, triées. n est une puissance de deux.',
  sort: 'tri',
  'A becomes sorted, from its least value to its greatest. n is a power of two.':
    'A devient trié, de sa plus petite valeur à la plus grande. n est une puissance de deux.',
  'matrix product': 'produit de matrices',
  ['C becomes the product of A and B: C[r, c] is A[r, 0] * B[0, c] + .. + A[r, n - 1] * B[n - ' +
    '1, c], modulo 2^32. There is a processor for each place of C.']:
    'C devient le produit de A et B : C[r, c] est A[r, 0] * B[0, c] + .. + A[r, n - 1] * B[n - ' +
    '1, c], modulo 2^32. Il y a un processeur pour chaque place de C.',
  'depths in a tree': 'profondeurs dans un arbre',
  ['A tour goes around a tree of n nodes: each edge is an arc down and one up. next[a] is the ' +
    'arc after a, and of the last one that itself; down[a] is 1 if a leads down, else 0; ' +
    'head[a] is the node that it leads to. depth[v] becomes how many edges v lies below the ' +
    'root, where the tour begins and ends. next may change.']:
    'Un tour fait le tour d’un arbre de n nœuds : chaque arête est un arc qui descend et un ' +
    'qui monte. next[a] est l’arc après a, et pour le dernier lui-même ; down[a] est 1 si a ' +
    'descend, sinon 0 ; head[a] est le nœud où il mène. depth[v] devient le nombre d’arêtes ' +
    'entre v et la racine, où le tour commence et finit. next peut changer.',
  'ways in a graph': 'chemins dans un graphe',
  ['A[a, b] is 1 if an edge leads from node a to node b, else 0. W[a, b] becomes 1 if a way ' +
    'does, of one edge, more or none, and else 0. There is a processor for each three nodes. A ' +
    'may change.']:
    'A[a, b] est 1 si une arête mène du nœud a au nœud b, sinon 0. W[a, b] devient 1 si un ' +
    'chemin le fait, d’une arête, de plusieurs ou d’aucune, et sinon 0. Il y a un processeur ' +
    'pour chaque triplet de nœuds. A peut changer.',
  'connected components': 'composantes connexes',
  ['Edge i joins the nodes U[i] and V[i], which may be the same. C[v] becomes the least node ' +
    'that v is joined to, by one edge, more or none. m is at least n.']:
    'L’arête i relie les nœuds U[i] et V[i], qui peuvent être le même. C[v] devient le plus ' +
    'petit nœud auquel v est relié, par une arête, plusieurs ou aucune. m est au moins n.',
  '“{0}” needs two registers, as in “{1}”, or in pram 3 of an array A “{2}”.':
    '« {0} » demande deux registres, comme dans « {1} », ou en pram 3 avec un tableau A « {2} ».',
  '“{0}” needs no operand, as in “{1}”.': '« {0} » ne demande aucun opérande, comme dans « {1} ».',
  '“{0}” needs one register, as in “{1}”.': '« {0} » demande un registre, comme dans « {1} ».',
  '“{0}” needs a register and a number, as in “{1}”.':
    '« {0} » demande un registre et un nombre, comme dans « {1} ».',
  '“{0}” needs three registers, as in “{1}”.':
    '« {0} » demande trois registres, comme dans « {1} ».',
  '“{0}” needs a register and a label, as in “{1}”.':
    '« {0} » demande un registre et une étiquette, comme dans « {1} ».',
  '“{0}” needs one label, as in “{1}”.': '« {0} » demande une étiquette, comme dans « {1} ».',
  'There are 1 to 65,536 cells, with pram 3 up to 1,048,576.':
    'Il y a de 1 à 65,536 cellules, avec pram 3 jusqu’à 1,048,576.',
  'There are 1 to 1,024 processors, with pram 3 up to 65,536.':
    'Il y a de 1 à 1,024 processeurs, avec pram 3 jusqu’à 65,536.',
  'There are at most 4,294,967,295 steps.': 'Il y a au plus 4,294,967,295 étapes.',
  'A cell must be one that there is, and a value is at most 4,294,967,295.':
    'La cellule doit exister, et une valeur est au plus 4,294,967,295.',
  'An array has a cell at least, and all of its cells must be ones that there are.':
    'Un tableau a au moins une cellule, et toutes ses cellules doivent exister.',
  'A number is at most 4,294,967,295.': 'Un nombre est au plus 4,294,967,295.',
  ['The lines before the program are, in this order: pram 1, cells M, procs N, steps T, any ' +
    'number of init CELL VALUE, code. With pram 2, a line rule common, rule priority or rule ' +
    'crew stands after steps. With pram 3, any number of array NAME BASE LENGTH stand after ' +
    'that, and an init may have more values, for the cells that follow.']:
    'Les lignes avant le programme sont, dans cet ordre : pram 1, cells M, procs N, steps T, ' +
    'un nombre quelconque de init CELL VALUE, code. Avec pram 2, une ligne rule common, rule ' +
    'priority ou rule crew vient après steps. Avec pram 3, un nombre quelconque de array NAME ' +
    'BASE LENGTH viennent ensuite, et un init peut avoir plus de valeurs, pour les cellules ' +
    'qui suivent.',
  'The character of number {0} in column {1} is not allowed, in comments either.':
    'Le caractère de numéro {0} dans la colonne {1} n’est pas permis, même dans les commentaires.',
  'The character “{0}” in column {1} is not allowed, in comments either.':
    'Le caractère « {0} » dans la colonne {1} n’est pas permis, même dans les commentaires.',
  'The character of number {0} in column {1} is allowed in comments alone.':
    'Le caractère de numéro {0} dans la colonne {1} n’est permis que dans les commentaires.',
  'The character “{0}” in column {1} is allowed in comments alone.':
    'Le caractère « {0} » dans la colonne {1} n’est permis que dans les commentaires.',
  '“{0}” names an array already or can name none, or array does not stand here.':
    '« {0} » nomme déjà un tableau ou ne peut en nommer aucun, ou array n’a pas sa place ici.',
  'Cell {0} was given a value before, or init does not stand here.':
    'La cellule {0} a déjà reçu une valeur, ou init n’a pas sa place ici.',
  'A rule is common, priority or crew, and stands only in a text of pram 2 or 3.':
    'Une règle est common, priority ou crew, et n’existe que dans un texte de pram 2 ou 3.',
  '“{0}” does not stand here.': '« {0} » n’a pas sa place ici.',
  'A line is missing.': 'Il manque une ligne.',
  '“{0}” must be a number, as in “cells 8” or “set r1 5”.':
    '« {0} » doit être un nombre, comme dans « cells 8 » ou « set r1 5 ».',
  'A number is missing, as in “cells 8” or “set r1 5”.':
    'Il manque un nombre, comme dans « cells 8 » ou « set r1 5 ».',
  'An instruction must stand after the label, on the same line.':
    'Une instruction doit suivre l’étiquette, sur la même ligne.',
  'A label is a letter or _, then letters, digits and _, then “:”.':
    'Une étiquette est une lettre ou _, puis des lettres, des chiffres et _, puis « : ».',
  'There is no instruction “{0}”. There are {1}; shl, shr, div and rem with pram 3 alone.':
    'Il n’y a pas d’instruction « {0} ». Il y a {1} ; shl, shr, div et rem avec pram 3 seulement.',
  'An operand is no register.': 'Un opérande n’est pas un registre.',
  '“{0}” is no register.': '« {0} » n’est pas un registre.',
  'It is “{0}”.': 'C’est « {0} ».',
  'A line defines “{0}” by beginning with “{0}:”.':
    'Une ligne définit « {0} » en commençant par « {0}: ».',
  'this line is refused': 'cette ligne est refusée',
  '{0}.': '{0}.',
  empty: 'vide',
  'your own: {0}': 'le vôtre : {0}',
  'Your own': 'Les vôtres',
  'Gallery, in pardo': 'Galerie, en pardo',
  'Gallery, for the machine itself': 'Galerie, pour la machine elle-même',
  'the program of this link': 'le programme de ce lien',
  'a new program': 'un nouveau programme',
  'name {0}': 'nom {0}',
  Rename: 'Renommer',
  Cancel: 'Annuler',
  'Undo the deletion': 'Annuler la suppression',
  '“{0}” is deleted.': '« {0} » est supprimé.',
  'deleted: {0}': 'supprimé : {0}',
  'rename this program': 'renommer ce programme',
  'delete this program': 'supprimer ce programme',
  'there is no such lesson': 'il n’y a pas de telle leçon',
  'line {0}: {1}': 'ligne {0} : {1}',
  'Processor {0} is gone since line {1}, where its array has no such place.':
    'Le processeur {0} est parti depuis la ligne {1}, où son tableau n’a pas cette place.',
  'a line of the header is missing.': 'une ligne de l’en-tête manque.',
  'two processors write one place in line {0}, against the rule.':
    'deux processeurs écrivent une même place à la ligne {0}, contre la règle.',
  'a value is not the one that is wanted.': 'une valeur n’est pas celle qui est voulue.',
  'a processor is gone in line {0}.': 'un processeur est parti à la ligne {0}.',
  'a length is not the one that is wanted.': 'une longueur n’est pas celle qui est voulue.',
  'it needs {1}: two processors read one place in line {0}.':
    'il faut {1} : deux processeurs lisent une même place à la ligne {0}.',
  'it needs {1}: two processors write one place in line {0}.':
    'il faut {1} : deux processeurs écrivent une même place à la ligne {0}.',
  'it needs {1}: two processors write different values to one place in line {0}.':
    'il faut {1} : deux processeurs écrivent des valeurs différentes à une place, ligne {0}.',
  'all is right, but it takes too much time.': 'tout est juste, mais il prend trop de temps.',
  'all is right, but it makes too many operations.':
    'tout est juste, mais il fait trop d’opérations.',
  'all is right, but the machine makes too many steps.':
    'tout est juste, mais la machine fait trop d’étapes.',
  'all is right, but in too many lines of code.': 'tout est juste, mais en trop de lignes de code.',
  'Not yet, on input {0} of {1}, which is not shown: {2}':
    'Pas encore, sur l’entrée {0} de {1}, qui n’est pas montrée : {2}',
  'processor {0} is gone in line {1}.':
    'le processeur {0} est parti à la ligne {1}.',
  '{0} has length {1}, wanted {2}.':
    '{0} a la longueur {1}, voulu {2}.',
  '{0} holds {1}, wanted {2}.': '{0} contient {1}, voulu {2}.',
  '{0} holds {1}, wanted {2}; no line wrote it.':
    '{0} contient {1}, voulu {2} ; aucune ligne ne l’a écrit.',
  '{0} holds {1}, wanted {2}; line {3} wrote it last.':
    '{0} contient {1}, voulu {2} ; la ligne {3} l’a écrit en dernier.',
  'Not yet: the line “{0}” is missing. “Begin anew” brings it back.':
    'Pas encore : la ligne « {0} » manque. « Recommencer » la remet.',
  'Not yet, {0}': 'Pas encore, {0}',
  'nothing is named “{1}”, with the input in its line {0}':
    'rien ne s’appelle « {1} », avec l’entrée de sa ligne {0}',
  'Inputs that are shown': 'Entrées montrées',
  input: 'entrée',
  '{0} wanted': '{0} voulu',
  'Time at most {0}.': 'Temps au plus {0}.',
  'Operations at most {0}.': 'Opérations au plus {0}.',
  'Steps of the machine at most {0}.': 'Étapes de la machine au plus {0}.',
  'Lines of code at most {0}.': 'Lignes de code au plus {0}.',
  'it has a character that no text here may have':
    'elle a un caractère qu’aucun texte ne peut avoir ici',
  'the first line has to be “exercise 1”': 'la première ligne doit être « exercise 1 »',
  'no line of an exercise begins with this word':
    'aucune ligne d’un exercice ne commence par ce mot',
  'something is wrong behind the first word': 'quelque chose ne va pas après le premier mot',
  'it may stand once, and stands a second time':
    'cela ne peut figurer qu’une fois, et figure une deuxième fois',
  'the text ends without “{0}”': 'le texte finit sans « {0} »',
  'this input does not say what is wanted, and there is no reference':
    'cette entrée ne dit pas ce qui est voulu, et il n’y a pas de référence',
  'it is too long': 'il est trop long',
  'the text is no exercise: {0}': 'le texte n’est pas un exercice : {0}',
  'Under {0}.': 'Sous {0}.',
  'Judge tries your lines on {0} inputs, of which {1} are not shown.':
    '« Juger » essaie vos lignes sur {0} entrées, dont {1} ne sont pas montrées.',
  '{0} cannot be opened: {1}.': '{0} ne peut pas être ouvert : {1}.',
  'processors {0} and {1} write {2} in line {3}, against the rule {4}.':
    'les processeurs {0} et {1} écrivent {2} à la ligne {3}, contre la règle {4}.',
  'processors {0} and {1} write different values to {2} in line {3}, against the rule {4}.':
    'les processeurs {0} et {1} écrivent des valeurs différentes dans {2} à la ligne {3}, ' +
    'contre la règle {4}.',
  'it needs {4}: processors {0} and {1} read {2} in line {3}.':
    'il faut {4} : les processeurs {0} et {1} lisent {2} à la ligne {3}.',
  'it needs {4}: processors {0} and {1} write {2} in line {3}.':
    'il faut {4} : les processeurs {0} et {1} écrivent {2} à la ligne {3}.',
  'it needs {4}: processors {0} and {1} write different values to {2} in line {3}.':
    'il faut {4} : les processeurs {0} et {1} écrivent des valeurs différentes dans {2} à la ' +
    'ligne {3}.',
  'all is right, but its time is {0}; at most {1} is allowed here.':
    'tout est juste, mais le temps est {0} ; au plus {1} est permis ici.',
  'all is right, but it makes {0} operations; at most {1} are allowed here.':
    'tout est juste, mais il fait {0} opérations ; au plus {1} sont permises ici.',
  'all is right, but the machine makes {0} steps; at most {1} are allowed here.':
    'tout est juste, mais la machine fait {0} étapes ; au plus {1} sont permises ici.',
  'all is right, but in {0} lines of code; at most {1} are allowed.':
    'tout est juste, mais en {0} lignes de code ; au plus {1} sont permises.',
  'Not yet, on input {0} of {1}: {2}': 'Pas encore, sur l’entrée {0} de {1} : {2}',
  'Not yet, on input {0} of {1} ({2}): {3}': 'Pas encore, sur l’entrée {0} de {1} ({2}) : {3}',
  'the input in its line {0} sets a bad header: {1}':
    'l’entrée de sa ligne {0} donne un mauvais en-tête : {1}',
  'the input in its line {0} says badly what is wanted: {1}':
    'l’entrée de sa ligne {0} dit mal ce qui est voulu : {1}',
  'a bar has no value with the input in its line {0}: {1}':
    'une borne n’a pas de valeur avec l’entrée de sa ligne {0} : {1}',
  'its reference fails with the input in its line {0}: {1}':
    'sa référence échoue sur l’entrée de sa ligne {0} : {1}',
  'its reference ends with other values than the input in its line {0} wants':
    'sa référence finit par d’autres valeurs que ne veut l’entrée de sa ligne {0}',
  'its reference ends in a conflict with the input in its line {0}':
    'sa référence finit par un conflit sur l’entrée de sa ligne {0}',
  'This exercise cannot be judged by: {0}': 'On ne peut pas juger d’après cet exercice : {0}',
  'Right on all {0} inputs.': 'Juste sur les {0} entrées.',
  'Right on all {0} inputs, under {1}.': 'Juste sur les {0} entrées, sous {1}.',
  'Not yet: the text is too long.': 'Pas encore : le texte est trop long.',
  'your own': 'le vôtre',
  'Exercise: {0}': 'Exercice : {0}',
  '{0}, this input': '{0}, cette entrée',
  'Your own exercise: {0}': 'Votre propre exercice : {0}',
  'Tour {0} of {1}: {2}': 'Visite {0} de {1} : {2}',
  'Exercise {0}': 'Exercice {0}',
  'Exercise {0} of {1}: {2}': 'Exercice {0} de {1} : {2}',
  'Find a schedule {0} of {1}: {2}': 'Trouver un ordonnancement {0} de {1} : {2}',
  'A tour: losing a worker': 'Une visite : perdre un travailleur',
  Exercises: 'Exercices',
  'Find a schedule': 'Trouver un ordonnancement',
  'It is being judged.': 'Jugement en cours.',
  'Not yet: the program has a fault.': 'Pas encore : le programme a une erreur.',
  'The link is copied.': 'Le lien est copié.',
  'Copy it from the field.': 'Copiez-le depuis le champ.',
  'The program or the schedule is too long for a link: save it, and send the file.':
    'Le programme ou l’ordonnancement est trop long pour un lien : enregistrez-le, et envoyez ' +
    'le fichier.',
  ['This page is a file of yours, so what is copied is no whole link: others need the file ' +
    'playground.html too, and open it with this, from # on, after its address.']:
    'Cette page est un fichier à vous, et ce qui est copié n’est donc pas un lien entier : les ' +
    'autres ont besoin aussi du fichier playground.html, et l’ouvrent avec ceci, à partir de ' +
    '#, après son adresse.',
  'It works for those alone who reach this computer or its network.':
    'Il ne marche que pour ceux qui atteignent cet ordinateur ou son réseau.',
  'The address can\'t be read: {0}.': 'L’adresse ne peut pas être lue : {0}.',
  'Cells after this step': 'Cellules après cette étape',
  'Searching: step {0}.': 'Recherche : étape {0}.',
  'No earlier memory access.': 'Aucun accès mémoire avant.',
  'No later memory access.': 'Aucun accès mémoire après.',
  'No stop is reached any more.': 'Aucun arrêt n’est plus atteint.',
  'No processor ever comes to line {0}.': 'Aucun processeur n’arrive jamais à la ligne {0}.',
  'Making the start.': 'Le départ se prépare.',
  'Making {0} step.': '{0} étape en préparation.',
  'Making {0} steps.': '{0} étapes en préparation.',
  'lines done': 'lignes faites',
  ['Conflict: step {0} is against the rule {1}, at {2}. Processor {3} writes {4} (line {5}). ' +
    'Processor {6} writes {7} (line {8}). The machine ends before this step.']:
    'Conflit : l’étape {0} est contre la règle {1}, emplacement : {2}. Le processeur {3} écrit ' +
    '{4} (ligne {5}). Le processeur {6} écrit {7} (ligne {8}). La machine finit avant cette ' +
    'étape.',
  'Done: the job ends after {0} step. {1}': 'Fini : la tâche se termine après {0} étape. {1}',
  'Done: the job ends after {0} steps. {1}': 'Fini : la tâche se termine après {0} étapes. {1}',
  'All processors have stopped.': 'Tous les processeurs se sont arrêtés.',
  '{0} processor of {1} has an instruction to do.':
    '{0} processeur sur {1} a une instruction à faire.',
  '{0} processors of {1} have an instruction to do.':
    '{0} processeurs sur {1} ont une instruction à faire.',
  'After step {0} of {1}. {2}': 'Après l’étape {0} de {1}. {2}',
  ['Conflict: line {0} is against the rule {1}, at {2}: processor {3} writes {4}, processor ' +
    '{5} writes {6}. The program ends before it.']:
    'Conflit : la ligne {0} est contre la règle {1}, emplacement : {2}. Le processeur {3} ' +
    'écrit {4}, le processeur {5} écrit {6}. Le programme finit avant elle.',
  'No processor is active with {0}': 'Aucun processeur n’est actif avec {0}',
  'No processor is active': 'Aucun processeur n’est actif',
  '{1}, {0} of {2}, is active with {3}': '{1}, {0} sur {2}, est actif avec {3}',
  '{1}, {0} of {2}, are active with {3}': '{1}, {0} sur {2}, sont actifs avec {3}',
  '{1}, {0} of {2}, is active': '{1}, {0} sur {2}, est actif',
  '{1}, {0} of {2}, are active': '{1}, {0} sur {2}, sont actifs',
  '{0}, {1} of the machine': '{0}, {1} de la machine',
  '{0} line': '{0} ligne',
  '{0} lines': '{0} lignes',
  '{0} step': '{0} étape',
  '{0} steps': '{0} étapes',
  'Done: the program is over after {0}. {1}': 'Fini : le programme est terminé après {0}. {1}',
  'Line {0}: {1}. {2}. Done so far: {3}.': 'Ligne {0} : {1}. {2}. Fait jusqu’ici : {3}.',
  'It is being read.': 'Lecture en cours.',
  'It is being compiled, and run once.': 'Compilation en cours, avec une exécution.',
  'Something went wrong in this page: {0}': 'Quelque chose s’est mal passé dans cette page : {0}',
  'worker {0}': 'travailleur {0}',
  'twin {0} (of worker {1})': 'jumeau {0} (du travailleur {1})',
  'the data place that processor {0} asks for': 'la place de donnée que demande le processeur {0}',
  'the value that processor {0} asks for': 'la valeur que demande le processeur {0}',
  'the next counter that processor {0} asks for':
    'le compteur suivant que demande le processeur {0}',
  'the root and only leaf': 'la racine et seule feuille',
  'the root': 'la racine',
  'node {0}': 'nœud {0}',
  'the leaf of processor {0}': 'la feuille du processeur {0}',
  'the spare leaf {0}': 'la feuille libre {0}',
  'the conflict word': 'le mot de conflit',
  'the position of worker {0}': 'la position du travailleur {0}',
  'the older word of {0}': 'le mot plus ancien ({0})',
  'the newer word of {0}': 'le mot plus récent ({0})',
  'the claim on {0}': 'la réservation ({0})',
  'a spare word': 'un mot libre',
  'nothing finished': 'rien de fini',
  'finished up to step {0}, {1}': 'fini jusqu’à l’étape {0}, {1}',
  'nothing yet': 'rien encore',
  '{0} for step {1}': '{0} pour l’étape {1}',
  'none for step {0}': 'aucune pour l’étape {0}',
  none: 'rien',
  'step {0}': 'étape {0}',
  'processor {0} in step {1}': 'processeur {0} à l’étape {1}',
  '{0} of step {1}': '{0} de l’étape {1}',
  '{0} finds {1} raised already: {2}': '{0} trouve déjà augmenté : {1}, {2}',
  '{0} marks {1}: {2}': '{0} marque {1} : {2}',
  '{0} sets {1}: {2}': '{0} fixe {1} : {2}',
  '{0} writes {1}: {2}': '{0} écrit {1} : {2}',
  '{0} names the conflict: {1}': '{0} nomme le conflit : {1}',
  '{0} finds the conflict named already: {1}': '{0} trouve le conflit déjà nommé : {1}',
  '{0} swaps {1}: {2} becomes {3}': '{0} échange {1} : {2} devient {3}',
  '{0} comes too late to swap a word of {1}: it stays {2}':
    '{0} vient trop tard pour échanger un mot ({1}) : il reste {2}',
  '{0} reads {1}: {2}': '{0} lit {1} : {2}',
  '{0} walks to {1}': '{0} avance, but : {1}',
  '{0} makes no step: it is lost or over': '{0} ne fait pas d’étape : perdu ou terminé',
  '{0} is lost, with all that it knew': '{0} est perdu, avec tout ce qu’il savait',
  '{0} comes back, knowing nothing': '{0} revient, sans rien savoir',
  '{0} falls asleep': '{0} s’endort',
  '{0} wakes, as if no time had passed': '{0} se réveille, comme si le temps n’avait pas passé',
  '{0} starts beside it': '{0} démarre à côté',
  'Lost.': 'Perdu.',
  'Comes back: is about to read where it stood.': 'Revient : va lire où il se trouvait.',
  'Begins at {1}: looks for the phase; {0} step of its script made.':
    'Commence, lieu : {1} ; cherche la phase ; script : {0} étape.',
  'Begins at {1}: looks for the phase; {0} steps of its script made.':
    'Commence, lieu : {1} ; cherche la phase ; script : {0} étapes.',
  'At {1}: phase {2} (step {3}, {4}); {0} step of its script made.':
    'Lieu : {1} ; phase {2} (étape {3}, {4}) ; script : {0} étape.',
  'At {1}: phase {2} (step {3}, {4}); {0} steps of its script made.':
    'Lieu : {1} ; phase {2} (étape {3}, {4}) ; script : {0} étapes.',
  'Over: all steps are finished.': 'Terminé : toutes les étapes sont finies.',
  'Over: step {0} is against the rule.': 'Terminé : l’étape {0} est contre la règle.',
  'read by {0}': 'lue par {0}',
  'written by {0}': 'écrite par {0}',
  'Done.': 'Fini.',
  'Done: the same answer as the plain machine’s. {0}':
    'Fini : la même réponse que la machine simple. {0}',
  'Done: ANOTHER ANSWER THAN the plain machine’s. {0}':
    'Fini : UNE AUTRE RÉPONSE QUE la machine simple. {0}',
  'Conflict in step {1} at {2}.': 'Conflit à l’étape {1}, emplacement : {2}.',
  'Conflict in step {1} at {2}: the same answer as the plain machine’s. {0}':
    'Conflit à l’étape {1}, emplacement : {2}. La même réponse que la machine simple. {0}',
  'Conflict in step {1} at {2}: ANOTHER ANSWER THAN the plain machine’s. {0}':
    'Conflit à l’étape {1}, emplacement : {2}. UNE AUTRE RÉPONSE QUE la machine simple. {0}',
  'Unfinished: the last finished step is {0}.': 'Inachevé : la dernière étape finie est {0}.',
  apply: 'appliquer',
  compute: 'calculer',
  verify: 'vérifier',
  claim: 'réserver',
  'first word': 'premier mot',
  'second word': 'second mot',
  '{0} swaps the first word: {1} becomes {2}': '{0} échange le premier mot : {1} devient {2}',
  '{0} swaps the second word: {1} becomes {2}': '{0} échange le second mot : {1} devient {2}',
  '{0}, from moment {1} to {2}': '{0}, du moment {1} à {2}',
  '{1}: the first word says {2}, the second {3}; {0} change so far.':
    '{1} : le premier mot dit {2}, le second {3} ; {0} changement jusqu’ici.',
  '{1}: the first word says {2}, the second {3}; {0} changes so far.':
    '{1} : le premier mot dit {2}, le second {3} ; {0} changements jusqu’ici.',
  'cell {0}': 'cellule {0}',
  'r{0} of processor {1}': 'r{0} du processeur {1}',
  'the counter of processor {0}': 'compteur du processeur {0}',
  'The same steps up to this moment, and then each worker in turn to the end: {0}.':
    'Les mêmes étapes jusqu’à ce moment, puis chaque travailleur à son tour jusqu’à la fin : {0}.',
  'A plan has no twins: go back to a moment before the first one.':
    'Un plan n’a pas de jumeaux : revenez à un moment avant le premier.',
  '❚❚ Pause': '❚❚ Pause',
  '{0} heat': '{0} chaleur',
  'How often each line is executed, and by how many processors':
    'Combien de fois chaque ligne est exécutée, et par combien de processeurs',
  line: 'ligne',
  'executed so far': 'exécutée jusqu’ici',
  'in the whole run': 'dans toute l’exécution',
  'active so far': 'actifs jusqu’ici',
  'at most at once': 'au plus à la fois',
  'Executed so far: {0} of {1} times.': 'Exécutée jusqu’ici : {0} fois sur {1}.',
  'Active processors, counted each time: {0} of {1}, at most {2} at once.':
    'Processeurs actifs, comptés chaque fois : {0} sur {1}, au plus {2} à la fois.',
  'Steps {0} to {1}.': 'Étapes {0} à {1}.',
  'Step {0}: {1} read a cell, {2} write one.':
    'Étape {0} : {1} lisent une cellule, {2} en écrivent une.',
  'after step {0} of {1}': 'après l’étape {0} de {1}',
  'steps {0} to {1}': 'étapes {0} à {1}',
  processor: 'processeur',
  counter: 'compteur',
  instruction: 'instruction',
  reads: 'lit',
  writes: 'écrit',
  'goes to': 'va à',
  'from processor {0}': 'à partir du processeur {0}',
  'earlier processors': 'processeurs précédents',
  'later processors': 'processeurs suivants',
  halted: 'arrêté',
  'no such cell': 'pas de telle cellule',
  'halted in step {0}, {1}': 'arrêté à l’étape {0}, {1}',
  'no such cell in step {0}, {1}': 'pas de telle cellule à l’étape {0}, {1}',
  'its end': 'sa fin',
  'line {0}': 'ligne {0}',
  'Processors, and what each asks for in the next step':
    'Les processeurs, et ce que chacun demande à la prochaine étape',
  'Its answer: a conflict in step {0} at {1}, between processors {2} and {3}.':
    'Sa réponse : un conflit à l’étape {0}, emplacement : {1}, entre les processeurs {2} et {3}.',
  'Its answer: a conflict in line {0} at {1}, between processors {2} and {3}.':
    'Sa réponse : un conflit à la ligne {0}, emplacement : {1}, entre les processeurs {2} et {3}.',
  'The page is out of memory.': 'La page manque de mémoire.',
  'Its answer: done after {0} step.{1}': 'Sa réponse : fini après {0} étape.{1}',
  'Its answer: done after {0} steps.{1}': 'Sa réponse : fini après {0} étapes.{1}',
  'Its answer is more than {0} steps away, too far for this page: “pramx plain” goes on.':
    'Sa réponse est à plus de {0} étapes, trop loin pour cette page : « pramx plain » continue.',
  'Its answer is more than {0} steps away, and is being made.':
    'Sa réponse est à plus de {0} étapes, et se prépare.',
  '{0}, {1}, {2}, rule {3}. {4}': '{0}, {1}, {2}, règle {3}. {4}',
  '{0} cell': '{0} cellule',
  '{0} cells': '{0} cellules',
  '{0} processor': '{0} processeur',
  '{0} processors': '{0} processeurs',
  'The page shows up to {0} processors, and here are {1}: “pramx” takes them.':
    'La page montre jusqu’à {0} processeurs, et en voici {1} : « pramx » les accepte.',
  'Line {0}: {1}': 'Ligne {0} : {1}',
  'A text has at most {0} bytes.': 'Un texte a au plus {0} octets.',
  ['The lines before “code” are: pardo 1, then rule common, rule priority or rule crew; and ' +
    'then, in any order, const NAME = VALUE, just one procs NAME < COUNT, shared NAME or ' +
    'shared NAME[COUNT] with “= values” or without, private NAME after procs.']:
    'Les lignes avant « code » sont : pardo 1, puis rule common, rule priority ou rule crew ; ' +
    'et ensuite, dans n’importe quel ordre, const NAME = VALUE, exactement un procs NAME < ' +
    'COUNT, shared NAME ou shared NAME[COUNT] avec « = values » ou sans, private NAME après ' +
    'procs.',
  ['A line of code is NAME := VALUE, NAME[INDEX] := VALUE, if CONDITION, elsif CONDITION, ' +
    'else, end, while CONDITION, for NAME = FIRST to LAST, or the same with downto, assert ' +
    'CONDITION.']:
    'Une ligne de code est NAME := VALUE, NAME[INDEX] := VALUE, if CONDITION, elsif CONDITION, ' +
    'else, end, while CONDITION, for NAME = FIRST to LAST, ou le même avec downto, assert ' +
    'CONDITION.',
  'It is “^”: a power of two is 1 << h, exclusive or is xor.':
    'C’est « ^ » : une puissance de deux est 1 << h, le ou exclusif est xor.',
  ['An array needs an index and a scalar has none; no value goes to a constant, to the own ' +
    'number or to a loop’s variable; loops go by what is the same for all processors.']:
    'Un tableau demande un indice et un scalaire n’en a pas ; aucune valeur ne va à une ' +
    'constante, au numéro propre ou à la variable d’une boucle ; les boucles se règlent sur ce ' +
    'qui est le même pour tous les processeurs.',
  'Numbers go up to 4,294,967,295, processors to 65,536, places of an array to 1,048,576.':
    'Les nombres vont jusqu’à 4,294,967,295, les processeurs jusqu’à 65,536, les places d’un ' +
    'tableau jusqu’à 1,048,576.',
  'A private variable, a depth of loops and a depth of ifs each take one for each processor.':
    'Une variable privée, une profondeur de boucles et une profondeur de if en prennent une ' +
    'chacune pour chaque processeur.',
  'Each if, while and for needs an end.': 'Chaque if, while et for demande un end.',
  ['Lines for which three registers are too few have hidden lines before them. These need ' +
    'private variables without a name: as many as the line with most hidden lines has.']:
    'Les lignes pour lesquelles trois registres ne suffisent pas ont des lignes cachées devant ' +
    'elles. Celles-ci demandent des variables privées sans nom : autant que la ligne qui a le ' +
    'plus de lignes cachées.',
  'Does what its loop goes by ever change? A processor that is not in an if changes nothing there.':
    'Ce sur quoi sa boucle se règle change-t-il jamais ? Un processeur qui n’est pas dans un ' +
    'if n’y change rien.',
  'gone: line {0} has no such place': 'parti : la ligne {0} n’a pas cette place',
  'Processors in the line that is next': 'Les processeurs dans la prochaine ligne',
  'in this line': 'dans cette ligne',
  nobody: 'personne',
  'one is enough': 'un seul suffit',
  ['Lose two of the three workers for good, each after a step of its own, and let the job ' +
    'come to its end.']:
    'Perdez deux des trois travailleurs pour de bon, chacun après une étape à lui, et laissez ' +
    'la tâche arriver à sa fin.',
  'too late': 'trop tard',
  ['Let a worker come too late to swap a word: it sleeps right before its swap, the others do ' +
    'its part, and it wakes.']:
    'Faites qu’un travailleur vienne trop tard pour échanger un mot : il s’endort juste avant ' +
    'son échange, les autres font sa part, et il se réveille.',
  'asleep through two steps': 'endormi pendant deux étapes',
  ['Let a worker sleep while the others finish two steps of the machine. Then wake it, and ' +
    'let it be the one that finishes a later step.']:
    'Faites dormir un travailleur pendant que les autres finissent deux étapes de la machine. ' +
    'Puis réveillez-le, et faites que ce soit lui qui finisse une étape suivante.',
  'Solved, in {0} acts.': 'Résolu, en {0} actes.',
  'Not yet: no such thing happened.': 'Pas encore : rien de tel n’est arrivé.',
  'moment {0} of {1}': 'moment {0} de {1}',
  '{0} of {1}': '{0} de {1}',
  'loop {0} of P{1}': 'boucle {0}, P{1}',
  'mask {0} of P{1}': 'masque {0}, P{1}',
  'kept {0} of P{1}': 'gardé {0}, P{1}',
  '{0} of P{1}': '{0} de P{1}',
  'To line {0}': 'Jusqu’à la ligne {0}',
  'No stop at line {0}': 'Pas d’arrêt à la ligne {0}',
  'Stop at line {0}': 'Arrêt à la ligne {0}',
  'one program, four processors': 'un programme, quatre processeurs',
  ['Four processors run the same program on common memory, line by line together. It sums ' +
    'eight values. Click “Step” some times: the arrow in the text shows where all are, those ' +
    'that are lit take part in the line, and arrows show who reads and who writes.']:
    'Quatre processeurs exécutent le même programme sur une mémoire partagée, ligne par ligne ' +
    'ensemble. Il additionne huit valeurs. Cliquez quelques fois sur « Étape » : la flèche ' +
    'dans le texte montre où tous se trouvent, ceux qui sont éclairés prennent part à la ' +
    'ligne, et des flèches montrent qui lit et qui écrit.',
  'reads before writes': 'lire avant d’écrire',
  ['In each line all reads come before all writes. So the result depends on nobody’s speed. A ' +
    'line is some steps of the machine: “the machine’s steps” shows them. Below, the plot has ' +
    'all of them; a click goes there. Under it stands what the run costs.']:
    'Dans chaque ligne, toutes les lectures viennent avant toutes les écritures. Le résultat ' +
    'ne dépend donc de la vitesse de personne. Une ligne fait quelques étapes de la machine : ' +
    '« les étapes de la machine » les montre. Plus bas, le graphique les a toutes ; un clic y ' +
    'mène. Au-dessous se lit ce que coûte l’exécution.',
  'nobody has such a machine': 'personne n’a une telle machine',
  ['Real threads stop, sleep and die at any moment. Here three workers do the work of the ' +
    'four processors, by atomic steps on common words: each step of the machine, and so each ' +
    'line. Click “Step all” some times: each walks through the tree, from leaf to leaf.']:
    'De vrais fils d’exécution s’arrêtent, dorment et meurent à tout moment. Ici trois ' +
    'travailleurs font le travail des quatre processeurs, par étapes atomiques sur des mots ' +
    'partagés : chaque étape de la machine, et donc chaque ligne. Cliquez quelques fois sur « ' +
    'Une étape chacun » : chacun parcourt l’arbre, de feuille en feuille.',
  'the tree': 'l’arbre',
  ['A leaf is a processor. Each step of the machine has passes over all leaves; a node is ' +
    'coloured when all below it is done. Who comes to a node that is done goes elsewhere, and ' +
    'who finds the root done begins the next pass. Nobody waits.']:
    'Une feuille est un processeur. Chaque étape de la machine a des passes sur toutes les ' +
    'feuilles ; un nœud est coloré quand tout ce qui est au-dessous est fait. Qui arrive à un ' +
    'nœud fait va ailleurs, et qui trouve la racine faite commence la passe suivante. Personne ' +
    'n’attend.',
  'a worker is lost': 'un travailleur est perdu',
  ['Worker 2 is lost in the midst of processor 3’s part: the register is written, the counter ' +
    'is not, and the leaf P3 is not marked. Nobody is told. What will the others do? Click ' +
    '“Step all” some ten times, and read in the list of atomic steps what they do at that leaf.']:
    'Le travailleur 2 est perdu au milieu de la part du processeur 3 : le registre est écrit, ' +
    'le compteur ne l’est pas, et la feuille P3 n’est pas marquée. Personne n’est prévenu. Que ' +
    'vont faire les autres ? Cliquez une dizaine de fois sur « Une étape chacun », et lisez ' +
    'dans la liste des étapes atomiques ce qu’ils font à cette feuille.',
  'the others do its part': 'les autres font sa part',
  ['The others found its leaf not done, and did its part; what was written already stayed. ' +
    'The first step is finished, and “Next finished step” shows each further one. Go back with ' +
    'the slider and lose a worker elsewhere: try any moment at all.']:
    'Les autres ont trouvé sa feuille non faite, et ont fait sa part ; ce qui était déjà écrit ' +
    'est resté. La première étape est finie, et « Prochaine étape finie » montre chacune des ' +
    'suivantes. Revenez en arrière avec le curseur et perdez un travailleur ailleurs : essayez ' +
    'n’importe quel moment.',
  'it slept, and is late': 'il a dormi, et il est en retard',
  ['A lost worker does nothing more. One that slept does: worker 2 wakes, as if no time had ' +
    'passed, and goes on with what it meant to do then. Step it six times and more: it finds ' +
    'its words written and its leaf raised already, changes nothing, and walks on.']:
    'Un travailleur perdu ne fait plus rien. Un qui a dormi, si : le travailleur 2 se ' +
    'réveille, comme si le temps n’avait pas passé, et continue ce qu’il voulait faire alors. ' +
    'Faites-le avancer de six étapes et plus : il trouve ses mots déjà écrits et sa feuille ' +
    'déjà augmentée, ne change rien, et poursuit son chemin.',
  'back, knowing nothing': 'de retour, sans rien savoir',
  ['Worker 2 comes back. All it has is one word: where it stood. Step it: it reads that, then ' +
    'the root, and works on at its leaf.']:
    'Le travailleur 2 revient. Tout ce qu’il a est un mot : où il se trouvait. Faites-le ' +
    'avancer : il lit cela, puis la racine, et reprend le travail à sa feuille.',
  'one of three goes on': 'un sur trois continue',
  ['Now two of three are lost. Click “To the end”: one worker is enough, and the answer is ' +
    'the plain machine’s. That holds for every program, each number of workers and any ' +
    'schedule: it is proved. Next: the exercises, and “Find a schedule”.']:
    'Maintenant deux sur trois sont perdus. Cliquez sur « Jusqu’à la fin » : un travailleur ' +
    'suffit, et la réponse est celle de la machine simple. Cela vaut pour tout programme, tout ' +
    'nombre de travailleurs et tout ordonnancement : c’est prouvé. Ensuite : les exercices, et ' +
    '« Trouver un ordonnancement ».',
  'All steps are finished.': 'Toutes les étapes sont finies.',
  'Step {0} is against the rule.': 'L’étape {0} est contre la règle.',
  'Phase {1} (step {2}, {3}): {4} of {0} node are finished.':
    'Phase {1} (étape {2}, {3}) : {4} sur {0} nœud est fini.',
  'Phase {1} (step {2}, {3}): {4} of {0} nodes are finished.':
    'Phase {1} (étape {2}, {3}) : {4} sur {0} nœuds sont finis.',
  'The progress tree. {0}': 'L’arbre d’avancement. {0}',
  'to {0} of {1}': 'à {0} de {1}',
  lost: 'perdu',
  over: 'terminé',
  asleep: 'endormi',
  awake: 'éveillé',
  Step: 'Étape',
  Wake: 'Réveiller',
  Sleep: 'Endormir',
  Return: 'Retour',
  Lose: 'Perdre',
  Twin: 'Jumeau',
  'If lost?': 'Si perdu ?',
  'What if it is lost here, and the others go on to the end?':
    'Et s’il est perdu ici, et que les autres continuent jusqu’à la fin ?',
  'What if {1} is lost at moment {2}? The others make {0} atomic step more.':
    'Et si {1} est perdu au moment {2} ? Les autres font encore {0} étape atomique.',
  'What if {1} is lost at moment {2}? The others make {0} atomic steps more.':
    'Et si {1} est perdu au moment {2} ? Les autres font encore {0} étapes atomiques.',
  'Cells as a reader gets them': 'Cellules telles qu’un lecteur les reçoit',
  'On the way. Any other click ends it here.': 'En route. Tout autre clic arrête ici.',
  'Finished: {1} of {0} step.': 'Finies : {1} sur {0} étape.',
  'Finished: {1} of {0} steps.': 'Finies : {1} sur {0} étapes.',
  'a character here is neither printable ASCII nor a tab':
    'un caractère ici n’est ni de l’ASCII imprimable ni une tabulation',
  'a line of the header is wrong, missing or repeated':
    'une ligne de l’en-tête est fausse, manquante ou répétée',
  'a number must stand here, in digits alone':
    'un nombre doit se trouver ici, en chiffres seulement',
  'a number is outside its limits': 'un nombre est hors de ses limites',
  'no instruction stands here': 'aucune instruction ne se trouve ici',
  'the instruction has too few operands, or too many':
    'l’instruction a trop peu d’opérandes, ou trop',
  'no register stands here (r0 to r3), nor what may stand for one':
    'aucun registre ne se trouve ici (r0 à r3), ni ce qui peut en tenir lieu',
  'an earlier line defines this label': 'une ligne précédente définit cette étiquette',
  'no line defines the label of this jump': 'aucune ligne ne définit l’étiquette de ce saut',
  'no instruction follows the line code': 'aucune instruction ne suit la ligne code',
  'a program has at most 4,096 instructions': 'un programme a au plus 4,096 instructions',
  'a character here has no meaning': 'un caractère ici n’a pas de sens',
  'something is missing here, left over, or in the wrong place':
    'quelque chose manque ici, est en trop, ou n’est pas à sa place',
  'a name here is not known': 'un nom ici n’est pas connu',
  'the name that is declared here is known already': 'le nom déclaré ici est déjà connu',
  'a name here stands for something that has no place here':
    'un nom ici désigne quelque chose qui n’a pas sa place ici',
  'a number is outside its limits, or something is divided by 0':
    'un nombre est hors de ses limites, ou quelque chose est divisé par 0',
  'the array gets too many values, or too few without ...':
    'le tableau reçoit trop de valeurs, ou trop peu sans ...',
  'a program has at most 1,048,576 cells': 'un programme a au plus 1,048,576 cellules',
  'this else or end belongs to nothing': 'ce else ou end n’appartient à rien',
  'more than 32 brackets are open': 'plus de 32 parenthèses ou crochets sont ouverts',
  'the text ends here, and a block is not closed': 'le texte finit ici, et un bloc n’est pas fermé',
  'no line of code follows the line code': 'aucune ligne de code ne suit la ligne code',
  'three registers are too few for an expression of a loop: use a scalar':
    'trois registres ne suffisent pas pour une expression d’une boucle : employez un scalaire',
  'the program is still here after 1,048,576 steps, or 2^30 in all':
    'le programme est encore ici après 1,048,576 étapes, ou 2^30 en tout',
  'with its hidden lines a program has at most 1,048,576 cells':
    'avec ses lignes cachées, un programme a au plus 1,048,576 cellules',
  'At {0}: {1}.': 'À {0} : {1}.',
  'Its first {0} rows are shown.': 'Ses {0} premières lignes sont montrées.',
  '“:=” assigns, “=” compares.': '« := » affecte, « = » compare.',
  '{0}: {1}.': '{0} : {1}.',
  'the text is too long': 'le texte est trop long',
};
