// The texts of the page in Spanish, by their English words.
export const SPANISH = {
  'PRAM playground': 'Taller de PRAM',
  'What is proved, and what is only shown': 'Qué está demostrado y qué solo se muestra',
  'Proved:': 'Demostrado:',
  'Only shown:': 'Solo mostrado:',
  ['{0} the machine’s job of each program, and every answer, state, request, conflict, atomic ' +
    'step and read that is shown, come from the proved core of this repository. {1} drawings, ' +
    'wordings and the schedule, which are this page’s own. Trusted besides are how the core ' +
    'was made for browsers, its allocator, the browser, and this page’s JavaScript: {2} of the ' +
    'repository says so at length, and {3} what is proved.']:
    '{0} la tarea de la máquina para cada programa, y todas las respuestas, estados, ' +
    'peticiones, conflictos, pasos atómicos y lecturas que se muestran, vienen del núcleo ' +
    'demostrado de este repositorio. {1} los dibujos, las formulaciones y la planificación, ' +
    'que son propios de esta página. Se confía además en cómo se hizo el núcleo para los ' +
    'navegadores, en su asignador de memoria, en el navegador y en el JavaScript de esta ' +
    'página: {2} del repositorio lo dice por extenso, y {3}, qué está demostrado.',
  Learn: 'Aprender',
  'A tour, exercises and puzzles': 'Un recorrido, ejercicios y acertijos',
  Keys: 'Teclas',
  Home: 'Inicio',
  End: 'Fin',
  Space: 'Espacio',
  Ctrl: 'Ctrl',
  Tab: 'Tab',
  '{0} Keys act without {1}': '{0} Las teclas actúan sin {1}',
  ['{0} and {1} go a step back and on, of a program a line, {2} and {3} to the start and the ' +
    'end, {4} plays and pauses, {5} {6} undoes and {7} {8} redoes. In lockstep {9} and {10} go ' +
    'to the next and the previous memory access, {11} to the next stop. By workers {12} steps ' +
    'all, {13} to {14} step one, {15} goes to the next change of a word, {16} to the next ' +
    'finished step. {17} reaches every control. {18}']:
    '{0} y {1} van un paso atrás y adelante, en un programa una línea, {2} y {3} al principio ' +
    'y al final, {4} reproduce y pausa, {5} {6} deshace y {7} {8} rehace. En sincronía, {9} y ' +
    '{10} van al acceso a memoria siguiente y al anterior, {11} a la próxima parada. Por ' +
    'trabajadores, {12} da un paso de todos, {13} a {14} de uno, {15} va al próximo cambio de ' +
    'una palabra, {16} al próximo paso terminado. {17} llega a cada control. {18}',
  Language: 'Idioma',
  'Hand in': 'Entregar',
  'save the solved exercises as one file': 'guardar los ejercicios resueltos en un archivo',
  Judge: 'Evaluar',
  'Try this input': 'Probar esta entrada',
  'Begin anew': 'Empezar de nuevo',
  '◀ Before': '◀ Anterior',
  'Next ▶': 'Siguiente ▶',
  Close: 'Cerrar',
  Program: 'Programa',
  Undo: 'Deshacer',
  'undo the change of the text': 'deshacer el cambio del texto',
  Redo: 'Rehacer',
  'redo the change of the text': 'rehacer el cambio del texto',
  Save: 'Guardar',
  Reference: 'Referencia',
  ['A PRAM has many processors that share one memory and go in lockstep: in each step each ' +
    'of them carries out one instruction, and all read before any writes. Its rule of ' +
    'writing says what happens where several write to one place.']:
    'Una PRAM tiene muchos procesadores que comparten una memoria y avanzan al unísono: en ' +
    'cada paso cada uno ejecuta una instrucción, y todos leen antes de que alguno escriba. ' +
    'Su regla de escritura dice qué ocurre cuando varios escriben en un mismo lugar.',
  Open: 'Abrir',
  'open a file': 'abrir un archivo',
  '{0} is open.': '{0} está abierto.',
  '{0} has more than 64 MB, which no text may have.':
    '{0} tiene más de 64 MB, lo que ningún texto puede tener.',
  '{0} is no text: its bytes are not UTF-8.': '{0} no es un texto: sus bytes no son UTF-8.',
  '{0} cannot be read.': '{0} no se puede leer.',
  'save the text as a file': 'guardar el texto en un archivo',
  'Copy link': 'Copiar enlace',
  'Program: your own, or one of the gallery': 'Programa: uno suyo o uno de la galería',
  'The text of the program': 'El texto del programa',
  'No stops': 'Ninguna parada',
  ['Not all of your programs fit into what this browser keeps for the page: save those as ' +
    'files that you want to have again.']:
    'No todos sus programas caben en lo que este navegador guarda para la página: guarde en ' +
    'archivos los que quiera volver a tener.',
  'The link': 'El enlace',
  'The machine is shown once the program has no fault.':
    'La máquina se muestra en cuanto el programa no tiene errores.',
  'Write “{0}”': 'Escribir «{0}»',
  'The machine stays on the last text that had no fault.':
    'La máquina sigue en el último texto sin errores.',
  'In lockstep': 'En sincronía',
  'By workers': 'Por trabajadores',
  Views: 'Vistas',
  'to the start': 'al principio',
  '◀ Back': '◀ Atrás',
  'after step': 'tras el paso',
  'Step ▶': 'Paso ▶',
  'to the end': 'al final',
  '◀◀ Access': '◀◀ Acceso',
  'previous memory access': 'acceso a memoria anterior',
  'Access ▶▶': 'Acceso ▶▶',
  'next memory access': 'acceso a memoria siguiente',
  'To a stop': 'Hasta una parada',
  'to the next stop': 'hasta la próxima parada',
  '▶ Play': '▶ Reproducir',
  'steps a second': 'pasos por segundo',
  '{0} the machine’s steps': '{0} los pasos de la máquina',
  'Memory, and who reads and writes it in the next step':
    'La memoria, y quién la lee y la escribe en el próximo paso',
  'is read': 'se lee',
  'will be written': 'se escribirá',
  'was written just now': 'se acaba de escribir',
  disputed: 'en disputa',
  'Save picture': 'Guardar imagen',
  Steps: 'Pasos',
  'at work': 'trabajando',
  'read a cell': 'leen una celda',
  'write a cell': 'escriben una celda',
  'go to a step': 'ir a un paso',
  'Costs and model': 'Costes y modelo',
  Processors: 'Procesadores',
  'workers {0}': 'trabajadores {0}',
  'Step all': 'Un paso todos',
  'step all 10 times': '10 veces un paso todos',
  'step all 100 times': '100 veces un paso todos',
  'Next change': 'Próximo cambio',
  'to the next change of a word': 'al próximo cambio de una palabra',
  'Next finished step': 'Próximo paso terminado',
  'to the next finished step': 'al próximo paso terminado',
  'To the end': 'Hasta el final',
  'rounds a second': 'rondas por segundo',
  'undo the change of the schedule': 'deshacer el cambio de la planificación',
  'redo the change of the schedule': 'rehacer el cambio de la planificación',
  'Start again': 'Volver a empezar',
  'one moment back': 'un momento atrás',
  moment: 'momento',
  'one moment on': 'un momento adelante',
  'to the last moment': 'al último momento',
  'moment {0}': 'momento {0}',
  'Back to what was': 'Volver a lo que había',
  'The schedule is full: a page holds 400,000 acts.':
    'La planificación está llena: una página contiene 400,000 actos.',
  'Progress tree': 'Árbol de avance',
  'finished last below:': 'terminado por último debajo:',
  compact: 'compacta',
  wide: 'ancha',
  ['This is the {0} form of the board, as in {1}: a leaf for each processor. {2} and {3} use ' +
    'the {4} form, where a leaf stands for up to 64 processors and workers start far apart. ' +
    'The number in a node is the phase that is finished below it.']:
    'Esta es la forma {0} del tablero, como en {1}: una hoja para cada procesador. {2} y {3} ' +
    'usan la forma {4}, donde una hoja vale por hasta 64 procesadores y los trabajadores ' +
    'empiezan lejos unos de otros. El número en un nodo es la fase que está terminada debajo ' +
    'de él.',
  'Cells as a reader gets them, each with its step':
    'Las celdas como las recibe un lector, cada una con su paso',
  'The two words of a place': 'Las dos palabras de un lugar',
  cell: 'celda',
  'register of processor': 'registro de un procesador',
  'counter of processor': 'contador de un procesador',
  'place {0}': 'lugar {0}',
  'number {0}': 'número {0}',
  'register {0}': 'registro {0}',
  'Changes of the place': 'Cambios del lugar',
  'Atomic steps, the newest first': 'Pasos atómicos, el más reciente primero',
  'None yet.': 'Ninguno todavía.',
  'Later ones': 'Posteriores',
  'Atomic steps': 'Pasos atómicos',
  'Earlier ones': 'Anteriores',
  'An adversary': 'Un adversario',
  ['Whatever it does, the answer is the plain machine’s: that is the theorem. What it finds ' +
    'here is evidence.']:
    'Haga lo que haga, la respuesta es la de la máquina simple: ese es el teorema. Lo que halla ' +
    'aquí es un indicio.',
  'Random schedule': 'Planificación al azar',
  'seed {0}': 'semilla {0}',
  'how mean {0}': 'maldad {0}',
  'kind: some sleep for a while': 'amable: algunos duermen un rato',
  'mean: some are lost, too': 'malo: algunos también se pierden',
  'cruel: they are lost again and again': 'cruel: se pierden una y otra vez',
  'The schedule is full before the job ends.':
    'La planificación está llena antes de que acabe la tarea.',
  'The answer is the plain machine’s.': 'La respuesta es la de la máquina simple.',
  'ANOTHER ANSWER THAN the plain machine’s.': 'OTRA RESPUESTA QUE la de la máquina simple.',
  'Seed {0}, {1}.': 'Semilla {0}, {1}.',
  'Atomic steps: {0}. Losses: {1}. Returns: {2}. Sleeps: {3}.':
    'Pasos atómicos: {0}. Pérdidas: {1}. Regresos: {2}. Sueños: {3}.',
  'A click ended it.': 'Un clic lo terminó.',
  'Acts so far: {0}.': 'Actos hasta ahora: {0}.',
  'worst moments to lose each worker': 'peores momentos para perder a cada trabajador',
  'Worst moments': 'Peores momentos',
  'from here on, each worker but one is lost; within 2,000 schedules and 10 seconds':
    'desde aquí se pierde cada trabajador menos uno; en 2,000 planificaciones y 10 segundos como ' +
    'máximo',
  'Schedules tried: {0}.': 'Planificaciones probadas: {0}.',
  ['{0}, lost at moment {1}: those who are left make {2} atomic steps from here on, and {3} if ' +
    'the moment is the kindest. Moments tried: {4} of {5}.']:
    '{0}, perdido en el momento {1}: los que quedan dan {2} pasos atómicos desde aquí, y {3} en ' +
    'el momento más benigno. Momentos probados: {4} de {5}.',
  'Fewer than two workers are going: nobody is to be lost.':
    'Avanzan menos de dos trabajadores: no hay a quién perder.',
  'All schedules': 'Todas las planificaciones',
  '{0} worker 1 may be lost': '{0} el trabajador 1 puede perderse',
  'Show the slowest': 'Mostrar la más lenta',
  'Take a small program': 'Tomar un programa pequeño',
  'a small program': 'un programa pequeño',
  'States met so far: {0}.': 'Estados hallados hasta ahora: {0}.',
  ['Not all schedules were met: it ended after {0} states, which is what a page holds. Try ' +
    'fewer workers, or a smaller program.']:
    'No se recorrieron todas: terminó tras {0} estados, lo que cabe en una página. Pruebe con ' +
    'menos trabajadores, o con un programa más pequeño.',
  'Different ends met: {0}.': 'Finales distintos hallados: {0}.',
  'Each has the plain machine’s answer: the core replayed a schedule to it.':
    'Cada uno tiene la respuesta de la máquina simple: el núcleo repitió una planificación que ' +
    'lleva a él.',
  'NOT EACH HAS the plain machine’s answer.': 'NO TODOS TIENEN la respuesta de la máquina simple.',
  ['All schedules: {0}. States, each met once: {1}. Different atomic steps, each told by the ' +
    'core: {2}.']:
    'Todas las planificaciones: {0}. Estados, cada uno hallado una vez: {1}. Pasos atómicos ' +
    'distintos, cada uno dicho por el núcleo: {2}.',
  'Different ends: {0}.': 'Finales distintos: {0}.',
  'The shortest schedule has {0} atomic steps, the slowest {1}.':
    'La planificación más corta tiene {0} pasos atómicos, la más lenta {1}.',
  'Take the schedule home: a plan for {0}': 'Llevarse la planificación: un plan para {0}',
  'Save plan.csv': 'Guardar plan.csv',
  'The plan': 'El plan',
  'The machine': 'La máquina',
  'The whole page, with the program': 'La página entera, con el programa',
  active: 'activo',
  waits: 'espera',
  gone: 'fuera',
  done: 'listo',
  'an act of a schedule is unknown': 'un acto de una planificación es desconocido',
  'no such worker': 'no hay tal trabajador',
  'too many twins': 'demasiados gemelos',
  'a schedule is not written so': 'una planificación no se escribe así',
  'too many acts': 'demasiados actos',
  '{0} is out of its limits': '{0} está fuera de sus límites',
  'there is no such example': 'no hay tal ejemplo',
  '{0}, and other lines': '{0}, y otras líneas',
  'from cell {0}': 'desde la celda {0}',
  'earlier cells': 'celdas anteriores',
  'later cells': 'celdas posteriores',
  ['This run needs {0}. With other values at the start the same program may cost more, and ' +
    'need a stronger model.']:
    'Esta ejecución necesita {0}. Con otros valores al principio, el mismo programa puede ' +
    'costar más y necesitar un modelo más fuerte.',
  ['A model is judged by the steps of the machine, of which a line is several: two who read ' +
    'one place in a line may read it in different steps.']:
    'Un modelo se juzga por los pasos de la máquina, de los que una línea tiene varios: dos ' +
    'que leen un mismo lugar en una línea pueden leerlo en pasos distintos.',
  steps: 'pasos',
  processors: 'procesadores',
  Growth: 'Crecimiento',
  'constant {0}': 'constante {0}',
  'values {0}': 'valores {0}',
  'Try them': 'Probar',
  'A conflict ends it.': 'Un conflicto lo termina.',
  'There is no such program, or it is too large.': 'No hay tal programa, o es demasiado grande.',
  'The values are numbers, at most {0} of them.': 'Los valores son números, como mucho {0}.',
  'All values were tried.': 'Se han probado todos los valores.',
  '{0} = {1} is tried.': 'Se prueba {0} = {1}.',
  'processors times steps': 'procesadores por pasos',
  'their product': 'su producto',
  'instructions executed': 'instrucciones ejecutadas',
  'most processors at work': 'máximo de procesadores trabajando',
  'steps with a read': 'pasos con lectura',
  'steps with a write': 'pasos con escritura',
  'Not {0}: in step {1} processors {2} and {3} read {4}.':
    'No {0}: en el paso {1} los procesadores {2} y {3} leen {4}.',
  'Not {0}: in step {1} processors {2} and {3} write {4}.':
    'No {0}: en el paso {1} los procesadores {2} y {3} escriben {4}.',
  'Not {0}: in step {1} processors {2} and {3} write different values to {4}.':
    'No {0}: en el paso {1} los procesadores {2} y {3} escriben valores distintos en {4}.',
  'Not {0}: in line {5}, step {1}, processors {2} and {3} read {4}.':
    'No {0}: en la línea {5}, paso {1}, los procesadores {2} y {3} leen {4}.',
  'Not {0}: in line {5}, step {1}, processors {2} and {3} write {4}.':
    'No {0}: en la línea {5}, paso {1}, los procesadores {2} y {3} escriben {4}.',
  'Not {0}: in line {5}, step {1}, processors {2} and {3} write different values to {4}.':
    'No {0}: en la línea {5}, paso {1}, los procesadores {2} y {3} escriben valores distintos ' +
    'en {4}.',
  'from line {0}': 'desde la línea {0}',
  'earlier lines': 'líneas anteriores',
  'later lines': 'líneas posteriores',
  'Stop here, or no more': 'Parar aquí, o ya no',
  'To this line': 'Hasta esta línea',
  'It ended with {0} processor still running (P{1} in line {2}).':
    'Terminó con {0} procesador aún en marcha (P{1} en la línea {2}).',
  'It ended with {0} processors still running (P{1} in line {2}).':
    'Terminó con {0} procesadores aún en marcha (P{1} en la línea {2}).',
  'All had stopped after step {0}.': 'Todos se habían parado tras el paso {0}.',
  'Processor {0} stopped in step {1} at line {2}: no such cell.':
    'El procesador {0} se paró en el paso {1}, línea {2}: no hay tal celda.',
  'Processor {0} stopped in step {1} at line {2}: its array has no such place.':
    'El procesador {0} se paró en el paso {1}, línea {2}: su arreglo no tiene tal lugar.',
  'own numbers': 'el número propio',
  'A[i] becomes i.': 'A[i] pasa a ser i.',
  double: 'duplicar',
  'B[i] becomes twice A[i], modulo 2^32.': 'B[i] pasa a ser el doble de A[i], módulo 2^32.',
  reverse: 'invertir',
  'B becomes A in reverse: B[0] is A[n - 1].': 'B pasa a ser A al revés: B[0] es A[n - 1].',
  neighbours: 'vecinos',
  'B[i] becomes A[i] + A[i + 1], and B[n - 1] becomes A[n - 1] + A[0], modulo 2^32.':
    'B[i] pasa a ser A[i] + A[i + 1], y B[n - 1] pasa a ser A[n - 1] + A[0], módulo 2^32.',
  broadcast: 'difusión',
  'Each A[i] becomes A[0]. No two may read it in one step: copies make copies.':
    'Cada A[i] pasa a ser A[0]. Nunca dos pueden leerlo en un mismo paso: las copias hacen copias.',
  'is a seven among them': 'hay un siete entre ellos',
  'found becomes 1 if some A[i] is 7, and else stays 0.':
    'found pasa a ser 1 si algún A[i] es 7, y si no, queda en 0.',
  sum: 'suma',
  'total becomes the sum of all A[i], modulo 2^32. n is a power of two. A may change.':
    'total pasa a ser la suma de todos los A[i], módulo 2^32. n es una potencia de dos. A ' +
    'puede cambiar.',
  maximum: 'máximo',
  'greatest becomes the greatest of all A[i]. n is a power of two. A may change.':
    'greatest pasa a ser el mayor de todos los A[i]. n es una potencia de dos. A puede cambiar.',
  'prefix sums': 'sumas de prefijos',
  'A[i] becomes A[0] + .. + A[i], modulo 2^32. n is a power of two.':
    'A[i] pasa a ser A[0] + .. + A[i], módulo 2^32. n es una potencia de dos.',
  'ranks in a list': 'rangos en una lista',
  ['N[i] is the element after i in a list, and of its last one that itself. R[i] becomes how ' +
    'many come after i. N may change.']:
    'N[i] es el elemento que sigue a i en una lista, y para el último él mismo. R[i] pasa a ' +
    'ser cuántos vienen después de i. N puede cambiar.',
  'sums in segments': 'sumas por segmentos',
  ['Where F[i] is 1 a segment begins, and at A[0], too; else F[i] is 0. A[i] becomes the sum ' +
    'of its segment\'s values up to A[i], modulo 2^32. F may change.']:
    'Donde F[i] es 1 empieza un segmento, y también en A[0]; si no, F[i] es 0. A[i] pasa a ser ' +
    'la suma de los valores de su segmento hasta A[i], módulo 2^32. F puede cambiar.',
  compaction: 'compactación',
  ['The values of A that are not 0 go to the front of B, in their order; count becomes how ' +
    'many they are. The other places of B stay 0. n is a power of two.']:
    'Los valores de A que no son 0 van al principio de B, en su orden; count pasa a ser ' +
    'cuántos son. Los demás lugares de B quedan en 0. n es una potencia de dos.',
  'prefix sums by few': 'sumas de prefijos entre pocos',
  ['A[i] becomes A[0] + .. + A[i], modulo 2^32, of n values by p processors; n is a multiple ' +
    'of p. Each processor makes about as many additions as it has values.']:
    'A[i] pasa a ser A[0] + .. + A[i], módulo 2^32, de n valores con p procesadores; n es un ' +
    'múltiplo de p. Cada procesador hace más o menos tantas sumas como valores tiene.',
  'maximum in constant time': 'máximo en tiempo constante',
  'greatest becomes the greatest of all A[i]. There is a processor for each pair of values.':
    'greatest pasa a ser el mayor de todos los A[i]. Hay un procesador para cada par de ' +
    'valores.',
  'merge of two rows': 'mezcla de dos filas',
  ['A and B are sorted, each from its least value to its greatest. C becomes all their ' +
    'values, sorted. n is a power of two.']:
    'A y B están ordenados, cada uno de su menor valor al mayor. C pasa a ser todos sus ' +
    'valores, ordenados. n es una potencia de dos.',
  sort: 'ordenar',
  'A becomes sorted, from its least value to its greatest. n is a power of two.':
    'A queda ordenado, de su menor valor al mayor. n es una potencia de dos.',
  'matrix product': 'producto de matrices',
  ['C becomes the product of A and B: C[r, c] is A[r, 0] * B[0, c] + .. + A[r, n - 1] * B[n - ' +
    '1, c], modulo 2^32. There is a processor for each place of C.']:
    'C pasa a ser el producto de A y B: C[r, c] es A[r, 0] * B[0, c] + .. + A[r, n - 1] * B[n ' +
    '- 1, c], módulo 2^32. Hay un procesador para cada lugar de C.',
  'depths in a tree': 'profundidades en un árbol',
  ['A tour goes around a tree of n nodes: each edge is an arc down and one up. next[a] is the ' +
    'arc after a, and of the last one that itself; down[a] is 1 if a leads down, else 0; ' +
    'head[a] is the node that it leads to. depth[v] becomes how many edges v lies below the ' +
    'root, where the tour begins and ends. next may change.']:
    'Un recorrido rodea un árbol de n nodos: cada arista es un arco que baja y otro que sube. ' +
    'next[a] es el arco que sigue a a, y el del último es él mismo; down[a] es 1 si a baja, si ' +
    'no 0; head[a] es el nodo al que lleva. depth[v] pasa a ser cuántas aristas está v por ' +
    'debajo de la raíz, donde el recorrido empieza y acaba. next puede cambiar.',
  'ways in a graph': 'caminos en un grafo',
  ['A[a, b] is 1 if an edge leads from node a to node b, else 0. W[a, b] becomes 1 if a way ' +
    'does, of one edge, more or none, and else 0. There is a processor for each three nodes. A ' +
    'may change.']:
    'A[a, b] es 1 si una arista lleva del nodo a al nodo b, si no 0. W[a, b] pasa a ser 1 si ' +
    'lo hace un camino, de una arista, varias o ninguna, y si no 0. Hay un procesador para ' +
    'cada tres nodos. A puede cambiar.',
  'connected components': 'componentes conexas',
  ['Edge i joins the nodes U[i] and V[i], which may be the same. C[v] becomes the least node ' +
    'that v is joined to, by one edge, more or none. m is at least n.']:
    'La arista i une los nodos U[i] y V[i], que pueden ser el mismo. C[v] pasa a ser el menor ' +
    'nodo con el que v está unido, por una arista, varias o ninguna. m es al menos n.',
  '“{0}” needs two registers, as in “{1}”, or in pram 3 of an array A “{2}”.':
    '«{0}» necesita dos registros, como en «{1}», o en pram 3 con un arreglo A «{2}».',
  '“{0}” needs no operand, as in “{1}”.': '«{0}» no necesita ningún operando, como en «{1}».',
  '“{0}” needs one register, as in “{1}”.': '«{0}» necesita un registro, como en «{1}».',
  '“{0}” needs a register and a number, as in “{1}”.':
    '«{0}» necesita un registro y un número, como en «{1}».',
  '“{0}” needs three registers, as in “{1}”.': '«{0}» necesita tres registros, como en «{1}».',
  '“{0}” needs a register and a label, as in “{1}”.':
    '«{0}» necesita un registro y una etiqueta, como en «{1}».',
  '“{0}” needs one label, as in “{1}”.': '«{0}» necesita una etiqueta, como en «{1}».',
  'There are 1 to 65,536 cells, with pram 3 up to 1,048,576.':
    'Hay de 1 a 65,536 celdas, con pram 3 hasta 1,048,576.',
  'There are 1 to 1,024 processors, with pram 3 up to 65,536.':
    'Hay de 1 a 1,024 procesadores, con pram 3 hasta 65,536.',
  'There are at most 4,294,967,295 steps.': 'Hay como máximo 4,294,967,295 pasos.',
  'A cell must be one that there is, and a value is at most 4,294,967,295.':
    'La celda tiene que existir, y un valor es como máximo 4,294,967,295.',
  'An array has a cell at least, and all of its cells must be ones that there are.':
    'Un arreglo tiene al menos una celda, y todas sus celdas tienen que existir.',
  'A number is at most 4,294,967,295.': 'Un número es como máximo 4,294,967,295.',
  ['The lines before the program are, in this order: pram 1, cells M, procs N, steps T, any ' +
    'number of init CELL VALUE, code. With pram 2, a line rule common, rule priority or rule ' +
    'crew stands after steps. With pram 3, any number of array NAME BASE LENGTH stand after ' +
    'that, and an init may have more values, for the cells that follow.']:
    'Las líneas antes del programa son, en este orden: pram 1, cells M, procs N, steps T, ' +
    'cualquier número de init CELL VALUE, code. Con pram 2, una línea rule common, rule ' +
    'priority o rule crew va después de steps. Con pram 3, después va cualquier número de ' +
    'array NAME BASE LENGTH, y un init puede tener más valores, para las celdas que siguen.',
  'The character of number {0} in column {1} is not allowed, in comments either.':
    'El carácter de número {0} en la columna {1} no está permitido, tampoco en comentarios.',
  'The character “{0}” in column {1} is not allowed, in comments either.':
    'El carácter «{0}» en la columna {1} no está permitido, tampoco en comentarios.',
  'The character of number {0} in column {1} is allowed in comments alone.':
    'El carácter de número {0} en la columna {1} solo está permitido en comentarios.',
  'The character “{0}” in column {1} is allowed in comments alone.':
    'El carácter «{0}» en la columna {1} solo está permitido en comentarios.',
  '“{0}” names an array already or can name none, or array does not stand here.':
    '«{0}» ya nombra un arreglo o no puede nombrar ninguno, o array no va aquí.',
  'Cell {0} was given a value before, or init does not stand here.':
    'La celda {0} ya recibió un valor, o init no va aquí.',
  'A rule is common, priority or crew, and stands only in a text of pram 2 or 3.':
    'Una regla es common, priority o crew, y solo está en un texto de pram 2 o 3.',
  '“{0}” does not stand here.': '«{0}» no va aquí.',
  'A line is missing.': 'Falta una línea.',
  '“{0}” must be a number, as in “cells 8” or “set r1 5”.':
    '«{0}» tiene que ser un número, como en «cells 8» o «set r1 5».',
  'A number is missing, as in “cells 8” or “set r1 5”.':
    'Falta un número, como en «cells 8» o «set r1 5».',
  'An instruction must stand after the label, on the same line.':
    'Después de la etiqueta tiene que ir una instrucción, en la misma línea.',
  'A label is a letter or _, then letters, digits and _, then “:”.':
    'Una etiqueta es una letra o _, luego letras, cifras y _, luego «:».',
  'There is no instruction “{0}”. There are {1}; shl, shr, div and rem with pram 3 alone.':
    'No hay instrucción «{0}». Hay {1}; shl, shr, div y rem solo con pram 3.',
  'An operand is no register.': 'Un operando no es un registro.',
  '“{0}” is no register.': '«{0}» no es un registro.',
  'It is “{0}”.': 'Es «{0}».',
  'A line defines “{0}” by beginning with “{0}:”.': 'Una línea define «{0}» al empezar por «{0}:».',
  'this line is refused': 'esta línea se rechaza',
  '{0}.': '{0}.',
  empty: 'vacío',
  'your own: {0}': 'suyo: {0}',
  'Your own': 'Los suyos',
  'Gallery, in pardo': 'Galería, en pardo',
  'Gallery, for the machine itself': 'Galería, para la máquina misma',
  'the program of this link': 'el programa de este enlace',
  'a new program': 'un programa nuevo',
  'name {0}': 'nombre {0}',
  Rename: 'Renombrar',
  Cancel: 'Cancelar',
  'Undo the deletion': 'Deshacer el borrado',
  '“{0}” is deleted.': '«{0}» está borrado.',
  'deleted: {0}': 'borrado: {0}',
  'rename this program': 'renombrar este programa',
  'delete this program': 'borrar este programa',
  'there is no such lesson': 'no hay tal lección',
  'line {0}: {1}': 'línea {0}: {1}',
  'Processor {0} is gone since line {1}, where its array has no such place.':
    'El procesador {0} está fuera desde la línea {1}, donde su arreglo no tiene tal lugar.',
  'a line of the header is missing.': 'falta una línea de la cabecera.',
  'two processors write one place in line {0}, against the rule.':
    'dos procesadores escriben un mismo lugar en la línea {0}, contra la regla.',
  'a value is not the one that is wanted.': 'un valor no es el que se quería.',
  'a processor is gone in line {0}.': 'un procesador queda fuera en la línea {0}.',
  'a length is not the one that is wanted.': 'una longitud no es la que se quería.',
  'it needs {1}: two processors read one place in line {0}.':
    'necesita {1}: dos procesadores leen un mismo lugar en la línea {0}.',
  'it needs {1}: two processors write one place in line {0}.':
    'necesita {1}: dos procesadores escriben un mismo lugar en la línea {0}.',
  'it needs {1}: two processors write different values to one place in line {0}.':
    'necesita {1}: dos procesadores escriben valores distintos en un lugar en la línea {0}.',
  'all is right, but it takes too much time.': 'todo está bien, pero toma demasiado tiempo.',
  'all is right, but it makes too many operations.':
    'todo está bien, pero hace demasiadas operaciones.',
  'all is right, but the machine makes too many steps.':
    'todo está bien, pero la máquina hace demasiados pasos.',
  'all is right, but in too many lines of code.':
    'todo está bien, pero en demasiadas líneas de código.',
  'Not yet, on input {0} of {1}, which is not shown: {2}':
    'Todavía no, con la entrada {0} de {1}, que no se muestra: {2}',
  'processor {0} is gone in line {1}.':
    'el procesador {0} queda fuera en la línea {1}.',
  '{0} has length {1}, wanted {2}.':
    '{0} tiene la longitud {1}, se quería {2}.',
  '{0} holds {1}, wanted {2}.': '{0} contiene {1}, se quería {2}.',
  '{0} holds {1}, wanted {2}; no line wrote it.':
    '{0} contiene {1}, se quería {2}; ninguna línea lo escribió.',
  '{0} holds {1}, wanted {2}; line {3} wrote it last.':
    '{0} contiene {1}, se quería {2}; la línea {3} lo escribió por último.',
  'Not yet: the line “{0}” is missing. “Begin anew” brings it back.':
    'Todavía no: falta la línea «{0}». «Empezar de nuevo» la devuelve.',
  'Not yet, {0}': 'Todavía no, {0}',
  'nothing is named “{1}”, with the input in its line {0}':
    'nada se llama «{1}», con la entrada de su línea {0}',
  'Inputs that are shown': 'Entradas que se muestran',
  input: 'entrada',
  '{0} wanted': '{0} pedido',
  'Time at most {0}.': 'Tiempo como máximo {0}.',
  'Operations at most {0}.': 'Operaciones como máximo {0}.',
  'Steps of the machine at most {0}.': 'Pasos de la máquina como máximo {0}.',
  'Lines of code at most {0}.': 'Líneas de código como máximo {0}.',
  'it has a character that no text here may have':
    'tiene un carácter que aquí ningún texto puede tener',
  'the first line has to be “exercise 1”': 'la primera línea tiene que ser «exercise 1»',
  'no line of an exercise begins with this word':
    'ninguna línea de un ejercicio empieza por esta palabra',
  'something is wrong behind the first word': 'algo está mal detrás de la primera palabra',
  'it may stand once, and stands a second time': 'puede estar una vez, y está por segunda vez',
  'the text ends without “{0}”': 'el texto acaba sin «{0}»',
  'this input does not say what is wanted, and there is no reference':
    'esta entrada no dice qué se pide, y no hay referencia',
  'it is too long': 'es demasiado largo',
  'the text is no exercise: {0}': 'el texto no es un ejercicio: {0}',
  'Under {0}.': 'Bajo {0}.',
  'Judge tries your lines on {0} inputs, of which {1} are not shown.':
    '«Evaluar» prueba sus líneas con {0} entradas, de las que {1} no se muestran.',
  '{0} cannot be opened: {1}.': '{0} no se puede abrir: {1}.',
  'processors {0} and {1} write {2} in line {3}, against the rule {4}.':
    'los procesadores {0} y {1} escriben {2} en la línea {3}, contra la regla {4}.',
  'processors {0} and {1} write different values to {2} in line {3}, against the rule {4}.':
    'los procesadores {0} y {1} escriben valores distintos en {2} en la línea {3}, contra la ' +
    'regla {4}.',
  'it needs {4}: processors {0} and {1} read {2} in line {3}.':
    'necesita {4}: los procesadores {0} y {1} leen {2} en la línea {3}.',
  'it needs {4}: processors {0} and {1} write {2} in line {3}.':
    'necesita {4}: los procesadores {0} y {1} escriben {2} en la línea {3}.',
  'it needs {4}: processors {0} and {1} write different values to {2} in line {3}.':
    'necesita {4}: los procesadores {0} y {1} escriben valores distintos en {2} en la línea ' +
    '{3}.',
  'all is right, but its time is {0}; at most {1} is allowed here.':
    'todo está bien, pero el tiempo es {0}; aquí se permite como máximo {1}.',
  'all is right, but it makes {0} operations; at most {1} are allowed here.':
    'todo está bien, pero hace {0} operaciones; aquí se permiten como máximo {1}.',
  'all is right, but the machine makes {0} steps; at most {1} are allowed here.':
    'todo está bien, pero la máquina da {0} pasos; aquí se permiten como máximo {1}.',
  'all is right, but in {0} lines of code; at most {1} are allowed.':
    'todo está bien, pero en {0} líneas de código; se permiten como máximo {1}.',
  'Not yet, on input {0} of {1}: {2}': 'Todavía no, con la entrada {0} de {1}: {2}',
  'Not yet, on input {0} of {1} ({2}): {3}': 'Todavía no, con la entrada {0} de {1} ({2}): {3}',
  'the input in its line {0} sets a bad header: {1}':
    'la entrada de su línea {0} da una cabecera mala: {1}',
  'the input in its line {0} says badly what is wanted: {1}':
    'la entrada de su línea {0} dice mal lo que se pide: {1}',
  'a bar has no value with the input in its line {0}: {1}':
    'una cota no tiene valor con la entrada de su línea {0}: {1}',
  'its reference fails with the input in its line {0}: {1}':
    'su referencia falla con la entrada de su línea {0}: {1}',
  'its reference ends with other values than the input in its line {0} wants':
    'su referencia acaba con otros valores que los que quiere la entrada de su línea {0}',
  'its reference ends in a conflict with the input in its line {0}':
    'su referencia acaba en un conflicto con la entrada de su línea {0}',
  'This exercise cannot be judged by: {0}': 'No se puede evaluar según este ejercicio: {0}',
  'Right on all {0} inputs.': 'Correcto con las {0} entradas.',
  'Right on all {0} inputs, under {1}.': 'Correcto con las {0} entradas, bajo {1}.',
  'Not yet: the text is too long.': 'Todavía no: el texto es demasiado largo.',
  'your own': 'suyo',
  'Exercise: {0}': 'Ejercicio: {0}',
  '{0}, this input': '{0}, esta entrada',
  'Your own exercise: {0}': 'Ejercicio propio: {0}',
  'Tour {0} of {1}: {2}': 'Recorrido {0} de {1}: {2}',
  'Exercise {0}': 'Ejercicio {0}',
  'Exercise {0} of {1}: {2}': 'Ejercicio {0} de {1}: {2}',
  'Find a schedule {0} of {1}: {2}': 'Hallar una planificación {0} de {1}: {2}',
  'A tour: losing a worker': 'Un recorrido: perder un trabajador',
  Exercises: 'Ejercicios',
  'Find a schedule': 'Hallar una planificación',
  'It is being judged.': 'Se está evaluando.',
  'Not yet: the program has a fault.': 'Todavía no: el programa tiene un error.',
  'The link is copied.': 'El enlace está copiado.',
  'Copy it from the field.': 'Cópielo del campo.',
  'The program or the schedule is too long for a link: save it, and send the file.':
    'El programa o la planificación es demasiado largo para un enlace: guárdelo y envíe el ' +
    'archivo.',
  ['This page is a file of yours, so what is copied is no whole link: others need the file ' +
    'playground.html too, and open it with this, from # on, after its address.']:
    'Esta página es un archivo suyo, así que lo copiado no es un enlace entero: otros ' +
    'necesitan también el archivo playground.html, y lo abren con esto, desde #, tras su ' +
    'dirección.',
  'It works for those alone who reach this computer or its network.':
    'Solo sirve a quienes llegan a este ordenador o a su red.',
  'The address can\'t be read: {0}.': 'La dirección no se puede leer: {0}.',
  'Cells after this step': 'Celdas tras este paso',
  'Searching: step {0}.': 'Buscando: paso {0}.',
  'No earlier memory access.': 'Ningún acceso a memoria anterior.',
  'No later memory access.': 'Ningún acceso a memoria posterior.',
  'No stop is reached any more.': 'Ya no se llega a ninguna parada.',
  'No processor ever comes to line {0}.': 'Ningún procesador llega nunca a la línea {0}.',
  'Making the start.': 'Se prepara el principio.',
  'Making {0} step.': 'Se prepara {0} paso.',
  'Making {0} steps.': 'Se preparan {0} pasos.',
  'lines done': 'líneas hechas',
  ['Conflict: step {0} is against the rule {1}, at {2}. Processor {3} writes {4} (line {5}). ' +
    'Processor {6} writes {7} (line {8}). The machine ends before this step.']:
    'Conflicto: el paso {0} va contra la regla {1}, en {2}. El procesador {3} escribe {4} ' +
    '(línea {5}). El procesador {6} escribe {7} (línea {8}). La máquina termina antes de este ' +
    'paso.',
  'Done: the job ends after {0} step. {1}': 'Listo: la tarea termina tras {0} paso. {1}',
  'Done: the job ends after {0} steps. {1}': 'Listo: la tarea termina tras {0} pasos. {1}',
  'All processors have stopped.': 'Todos los procesadores se han parado.',
  '{0} processor of {1} has an instruction to do.':
    '{0} procesador de {1} tiene una instrucción que hacer.',
  '{0} processors of {1} have an instruction to do.':
    '{0} procesadores de {1} tienen una instrucción que hacer.',
  'After step {0} of {1}. {2}': 'Tras el paso {0} de {1}. {2}',
  ['Conflict: line {0} is against the rule {1}, at {2}: processor {3} writes {4}, processor ' +
    '{5} writes {6}. The program ends before it.']:
    'Conflicto: la línea {0} va contra la regla {1}, en {2}: el procesador {3} escribe {4}, el ' +
    'procesador {5} escribe {6}. El programa termina antes de ella.',
  'No processor is active with {0}': 'Ningún procesador está activo con {0}',
  'No processor is active': 'Ningún procesador está activo',
  '{1}, {0} of {2}, is active with {3}': '{1}, {0} de {2}, está activo con {3}',
  '{1}, {0} of {2}, are active with {3}': '{1}, {0} de {2}, están activos con {3}',
  '{1}, {0} of {2}, is active': '{1}, {0} de {2}, está activo',
  '{1}, {0} of {2}, are active': '{1}, {0} de {2}, están activos',
  '{0}, {1} of the machine': '{0}, {1} de la máquina',
  '{0} line': '{0} línea',
  '{0} lines': '{0} líneas',
  '{0} step': '{0} paso',
  '{0} steps': '{0} pasos',
  'Done: the program is over after {0}. {1}': 'Listo: el programa acaba tras {0}. {1}',
  'Line {0}: {1}. {2}. Done so far: {3}.': 'Línea {0}: {1}. {2}. Hecho hasta ahora: {3}.',
  'It is being read.': 'Se está leyendo.',
  'It is being compiled, and run once.': 'Se está compilando y ejecutando una vez.',
  'Something went wrong in this page: {0}': 'Algo salió mal en esta página: {0}',
  'worker {0}': 'trabajador {0}',
  'twin {0} (of worker {1})': 'gemelo {0} (del trabajador {1})',
  'the data place that processor {0} asks for': 'el lugar de dato que pide el procesador {0}',
  'the value that processor {0} asks for': 'el valor que pide el procesador {0}',
  'the next counter that processor {0} asks for':
    'el contador siguiente que pide el procesador {0}',
  'the root and only leaf': 'la raíz y única hoja',
  'the root': 'la raíz',
  'node {0}': 'nodo {0}',
  'the leaf of processor {0}': 'la hoja del procesador {0}',
  'the spare leaf {0}': 'la hoja libre {0}',
  'the conflict word': 'la palabra de conflicto',
  'the position of worker {0}': 'la posición del trabajador {0}',
  'the older word of {0}': 'la palabra más antigua de {0}',
  'the newer word of {0}': 'la palabra más nueva de {0}',
  'the claim on {0}': 'la reserva de {0}',
  'a spare word': 'una palabra libre',
  'nothing finished': 'nada terminado',
  'finished up to step {0}, {1}': 'terminado hasta el paso {0}, {1}',
  'nothing yet': 'nada todavía',
  '{0} for step {1}': '{0} para el paso {1}',
  'none for step {0}': 'ninguno para el paso {0}',
  none: 'nada',
  'step {0}': 'paso {0}',
  'processor {0} in step {1}': 'procesador {0} en el paso {1}',
  '{0} of step {1}': '{0} del paso {1}',
  '{0} finds {1} raised already: {2}': '{0} halla {1} con el valor ya subido: {2}',
  '{0} marks {1}: {2}': '{0} marca {1}: {2}',
  '{0} sets {1}: {2}': '{0} fija {1}: {2}',
  '{0} writes {1}: {2}': '{0} escribe {1}: {2}',
  '{0} names the conflict: {1}': '{0} nombra el conflicto: {1}',
  '{0} finds the conflict named already: {1}': '{0} halla el conflicto ya nombrado: {1}',
  '{0} swaps {1}: {2} becomes {3}': '{0} cambia {1}: {2} pasa a ser {3}',
  '{0} comes too late to swap a word of {1}: it stays {2}':
    '{0} llega tarde para cambiar una palabra de {1}: queda {2}',
  '{0} reads {1}: {2}': '{0} lee {1}: {2}',
  '{0} walks to {1}': '{0} camina a otro lugar: {1}',
  '{0} makes no step: it is lost or over': '{0} no da ningún paso: está perdido o ha acabado',
  '{0} is lost, with all that it knew': '{0} se pierde, con todo lo que sabía',
  '{0} comes back, knowing nothing': '{0} vuelve, sin saber nada',
  '{0} falls asleep': '{0} se duerme',
  '{0} wakes, as if no time had passed': '{0} despierta, como si no hubiera pasado el tiempo',
  '{0} starts beside it': '{0} empieza a su lado',
  'Lost.': 'Perdido.',
  'Comes back: is about to read where it stood.': 'Vuelve: está por leer dónde estaba.',
  'Begins at {1}: looks for the phase; {0} step of its script made.':
    'Empieza en {1}: busca la fase; guion: {0} paso.',
  'Begins at {1}: looks for the phase; {0} steps of its script made.':
    'Empieza en {1}: busca la fase; guion: {0} pasos.',
  'At {1}: phase {2} (step {3}, {4}); {0} step of its script made.':
    'En {1}: fase {2} (paso {3}, {4}); guion: {0} paso.',
  'At {1}: phase {2} (step {3}, {4}); {0} steps of its script made.':
    'En {1}: fase {2} (paso {3}, {4}); guion: {0} pasos.',
  'Over: all steps are finished.': 'Acabado: todos los pasos están terminados.',
  'Over: step {0} is against the rule.': 'Acabado: el paso {0} va contra la regla.',
  'read by {0}': 'leída por {0}',
  'written by {0}': 'escrita por {0}',
  'Done.': 'Listo.',
  'Done: the same answer as the plain machine’s. {0}':
    'Listo: la misma respuesta que la máquina simple. {0}',
  'Done: ANOTHER ANSWER THAN the plain machine’s. {0}':
    'Listo: OTRA RESPUESTA QUE la máquina simple. {0}',
  'Conflict in step {1} at {2}.': 'Conflicto en el paso {1}, en {2}.',
  'Conflict in step {1} at {2}: the same answer as the plain machine’s. {0}':
    'Conflicto en el paso {1}, en {2}: la misma respuesta que la máquina simple. {0}',
  'Conflict in step {1} at {2}: ANOTHER ANSWER THAN the plain machine’s. {0}':
    'Conflicto en el paso {1}, en {2}: OTRA RESPUESTA QUE la máquina simple. {0}',
  'Unfinished: the last finished step is {0}.': 'Sin terminar: el último paso terminado es {0}.',
  apply: 'aplicar',
  compute: 'calcular',
  verify: 'verificar',
  claim: 'reservar',
  'first word': 'primera palabra',
  'second word': 'segunda palabra',
  '{0} swaps the first word: {1} becomes {2}': '{0} cambia la primera palabra: {1} pasa a ser {2}',
  '{0} swaps the second word: {1} becomes {2}': '{0} cambia la segunda palabra: {1} pasa a ser {2}',
  '{0}, from moment {1} to {2}': '{0}, del momento {1} al {2}',
  '{1}: the first word says {2}, the second {3}; {0} change so far.':
    '{1}: la primera palabra dice {2}, la segunda {3}; {0} cambio hasta ahora.',
  '{1}: the first word says {2}, the second {3}; {0} changes so far.':
    '{1}: la primera palabra dice {2}, la segunda {3}; {0} cambios hasta ahora.',
  'cell {0}': 'celda {0}',
  'r{0} of processor {1}': 'r{0} del procesador {1}',
  'the counter of processor {0}': 'contador del procesador {0}',
  'The same steps up to this moment, and then each worker in turn to the end: {0}.':
    'Los mismos pasos hasta este momento, y luego cada trabajador por turno hasta el final: {0}.',
  'A plan has no twins: go back to a moment before the first one.':
    'Un plan no tiene gemelos: vuelva a un momento anterior al primero.',
  '❚❚ Pause': '❚❚ Pausa',
  '{0} heat': '{0} calor',
  'How often each line is executed, and by how many processors':
    'Cuántas veces se ejecuta cada línea, y por cuántos procesadores',
  line: 'línea',
  'executed so far': 'ejecutada hasta aquí',
  'in the whole run': 'en toda la ejecución',
  'active so far': 'activos hasta aquí',
  'at most at once': 'como máximo a la vez',
  'Executed so far: {0} of {1} times.': 'Ejecutada hasta aquí: {0} de {1} veces.',
  'Active processors, counted each time: {0} of {1}, at most {2} at once.':
    'Procesadores activos, contados cada vez: {0} de {1}, como máximo {2} a la vez.',
  'Steps {0} to {1}.': 'Pasos {0} a {1}.',
  'Step {0}: {1} read a cell, {2} write one.': 'Paso {0}: {1} leen una celda, {2} escriben una.',
  'after step {0} of {1}': 'tras el paso {0} de {1}',
  'steps {0} to {1}': 'pasos {0} a {1}',
  processor: 'procesador',
  counter: 'contador',
  instruction: 'instrucción',
  reads: 'lee',
  writes: 'escribe',
  'goes to': 'va a',
  'from processor {0}': 'desde el procesador {0}',
  'earlier processors': 'procesadores anteriores',
  'later processors': 'procesadores posteriores',
  halted: 'parado',
  'no such cell': 'no hay tal celda',
  'halted in step {0}, {1}': 'parado en el paso {0}, {1}',
  'no such cell in step {0}, {1}': 'no hay tal celda en el paso {0}, {1}',
  'its end': 'su final',
  'line {0}': 'línea {0}',
  'Processors, and what each asks for in the next step':
    'Los procesadores, y qué pide cada uno en el próximo paso',
  'Its answer: a conflict in step {0} at {1}, between processors {2} and {3}.':
    'Su respuesta: un conflicto en el paso {0}, en {1}, entre los procesadores {2} y {3}.',
  'Its answer: a conflict in line {0} at {1}, between processors {2} and {3}.':
    'Su respuesta: un conflicto en la línea {0}, en {1}, entre los procesadores {2} y {3}.',
  'The page is out of memory.': 'A la página le falta memoria.',
  'Its answer: done after {0} step.{1}': 'Su respuesta: listo tras {0} paso.{1}',
  'Its answer: done after {0} steps.{1}': 'Su respuesta: listo tras {0} pasos.{1}',
  'Its answer is more than {0} steps away, too far for this page: “pramx plain” goes on.':
    'Su respuesta está a más de {0} pasos, demasiado lejos para esta página: «pramx plain» sigue.',
  'Its answer is more than {0} steps away, and is being made.':
    'Su respuesta está a más de {0} pasos, y se está preparando.',
  '{0}, {1}, {2}, rule {3}. {4}': '{0}, {1}, {2}, regla {3}. {4}',
  '{0} cell': '{0} celda',
  '{0} cells': '{0} celdas',
  '{0} processor': '{0} procesador',
  '{0} processors': '{0} procesadores',
  'The page shows up to {0} processors, and here are {1}: “pramx” takes them.':
    'La página muestra hasta {0} procesadores, y aquí hay {1}: «pramx» los acepta.',
  'Line {0}: {1}': 'Línea {0}: {1}',
  'A text has at most {0} bytes.': 'Un texto tiene como máximo {0} bytes.',
  ['The lines before “code” are: pardo 1, then rule common, rule priority or rule crew; and ' +
    'then, in any order, const NAME = VALUE, just one procs NAME < COUNT, shared NAME or ' +
    'shared NAME[COUNT] with “= values” or without, private NAME after procs.']:
    'Las líneas antes de «code» son: pardo 1, luego rule common, rule priority o rule crew; y ' +
    'después, en cualquier orden, const NAME = VALUE, exactamente un procs NAME < COUNT, ' +
    'shared NAME o shared NAME[COUNT] con «= values» o sin ello, private NAME después de procs.',
  ['A line of code is NAME := VALUE, NAME[INDEX] := VALUE, if CONDITION, elsif CONDITION, ' +
    'else, end, while CONDITION, for NAME = FIRST to LAST, or the same with downto, assert ' +
    'CONDITION.']:
    'Una línea de código es NAME := VALUE, NAME[INDEX] := VALUE, if CONDITION, elsif ' +
    'CONDITION, else, end, while CONDITION, for NAME = FIRST to LAST, o lo mismo con downto, ' +
    'assert CONDITION.',
  'It is “^”: a power of two is 1 << h, exclusive or is xor.':
    'Es «^»: una potencia de dos es 1 << h, el o exclusivo es xor.',
  ['An array needs an index and a scalar has none; no value goes to a constant, to the own ' +
    'number or to a loop’s variable; loops go by what is the same for all processors.']:
    'Un arreglo necesita un índice y un escalar no tiene ninguno; ningún valor va a una ' +
    'constante, al número propio ni a la variable de un bucle; los bucles van según lo que es ' +
    'igual para todos los procesadores.',
  'Numbers go up to 4,294,967,295, processors to 65,536, places of an array to 1,048,576.':
    'Los números llegan hasta 4,294,967,295, los procesadores hasta 65,536, los lugares de un ' +
    'arreglo hasta 1,048,576.',
  'A private variable, a depth of loops and a depth of ifs each take one for each processor.':
    'Una variable privada, una profundidad de bucles y una profundidad de if toman cada una ' +
    'una celda por procesador.',
  'Each if, while and for needs an end.': 'Cada if, while y for necesita un end.',
  ['Lines for which three registers are too few have hidden lines before them. These need ' +
    'private variables without a name: as many as the line with most hidden lines has.']:
    'Las líneas para las que tres registros son pocos tienen líneas ocultas delante. Estas ' +
    'necesitan variables privadas sin nombre: tantas como la línea con más líneas ocultas.',
  'Does what its loop goes by ever change? A processor that is not in an if changes nothing there.':
    '¿Cambia alguna vez aquello según lo que va su bucle? Un procesador que no está en un if ' +
    'no cambia nada allí.',
  'gone: line {0} has no such place': 'fuera: la línea {0} no tiene tal lugar',
  'Processors in the line that is next': 'Los procesadores en la próxima línea',
  'in this line': 'en esta línea',
  nobody: 'nadie',
  'one is enough': 'con uno basta',
  ['Lose two of the three workers for good, each after a step of its own, and let the job ' +
    'come to its end.']:
    'Pierda dos de los tres trabajadores para siempre, cada uno después de un paso propio, y ' +
    'deje que la tarea llegue a su fin.',
  'too late': 'demasiado tarde',
  ['Let a worker come too late to swap a word: it sleeps right before its swap, the others do ' +
    'its part, and it wakes.']:
    'Haga que un trabajador llegue tarde para cambiar una palabra: se duerme justo antes de su ' +
    'cambio, los otros hacen su parte, y despierta.',
  'asleep through two steps': 'dormido durante dos pasos',
  ['Let a worker sleep while the others finish two steps of the machine. Then wake it, and ' +
    'let it be the one that finishes a later step.']:
    'Haga dormir a un trabajador mientras los otros terminan dos pasos de la máquina. Luego ' +
    'despiértelo, y haga que sea él quien termine un paso posterior.',
  'Solved, in {0} acts.': 'Resuelto, en {0} actos.',
  'Not yet: no such thing happened.': 'Todavía no: no ocurrió nada así.',
  'moment {0} of {1}': 'momento {0} de {1}',
  '{0} of {1}': '{0} de {1}',
  'loop {0} of P{1}': 'bucle {0}, P{1}',
  'mask {0} of P{1}': 'máscara {0}, P{1}',
  'kept {0} of P{1}': 'guardado {0}, P{1}',
  '{0} of P{1}': '{0} de P{1}',
  'To line {0}': 'Hasta la línea {0}',
  'No stop at line {0}': 'Sin parada en la línea {0}',
  'Stop at line {0}': 'Parada en la línea {0}',
  'one program, four processors': 'un programa, cuatro procesadores',
  ['Four processors run the same program on common memory, line by line together. It sums ' +
    'eight values. Click “Step” some times: the arrow in the text shows where all are, those ' +
    'that are lit take part in the line, and arrows show who reads and who writes.']:
    'Cuatro procesadores ejecutan el mismo programa sobre memoria compartida, línea por línea ' +
    'juntos. Suma ocho valores. Haga clic en «Paso» algunas veces: la flecha en el texto ' +
    'muestra dónde están todos, los que están iluminados toman parte en la línea, y las ' +
    'flechas muestran quién lee y quién escribe.',
  'reads before writes': 'leer antes de escribir',
  ['In each line all reads come before all writes. So the result depends on nobody’s speed. A ' +
    'line is some steps of the machine: “the machine’s steps” shows them. Below, the plot has ' +
    'all of them; a click goes there. Under it stands what the run costs.']:
    'En cada línea todas las lecturas van antes que todas las escrituras. Así el resultado no ' +
    'depende de la velocidad de nadie. Una línea son algunos pasos de la máquina: «los pasos ' +
    'de la máquina» los muestra. Más abajo, la gráfica los tiene todos; un clic lleva allí. ' +
    'Debajo está lo que cuesta la ejecución.',
  'nobody has such a machine': 'nadie tiene una máquina así',
  ['Real threads stop, sleep and die at any moment. Here three workers do the work of the ' +
    'four processors, by atomic steps on common words: each step of the machine, and so each ' +
    'line. Click “Step all” some times: each walks through the tree, from leaf to leaf.']:
    'Los hilos reales se paran, duermen y mueren en cualquier momento. Aquí tres trabajadores ' +
    'hacen el trabajo de los cuatro procesadores, con pasos atómicos sobre palabras ' +
    'compartidas: cada paso de la máquina, y así cada línea. Haga clic en «Un paso todos» ' +
    'algunas veces: cada uno recorre el árbol, de hoja en hoja.',
  'the tree': 'el árbol',
  ['A leaf is a processor. Each step of the machine has passes over all leaves; a node is ' +
    'coloured when all below it is done. Who comes to a node that is done goes elsewhere, and ' +
    'who finds the root done begins the next pass. Nobody waits.']:
    'Una hoja es un procesador. Cada paso de la máquina tiene pasadas por todas las hojas; un ' +
    'nodo se colorea cuando todo lo que hay debajo está hecho. Quien llega a un nodo hecho va ' +
    'a otra parte, y quien halla hecha la raíz empieza la pasada siguiente. Nadie espera.',
  'a worker is lost': 'un trabajador se pierde',
  ['Worker 2 is lost in the midst of processor 3’s part: the register is written, the counter ' +
    'is not, and the leaf P3 is not marked. Nobody is told. What will the others do? Click ' +
    '“Step all” some ten times, and read in the list of atomic steps what they do at that leaf.']:
    'El trabajador 2 se pierde en medio de la parte del procesador 3: el registro está ' +
    'escrito, el contador no, y la hoja P3 no está marcada. A nadie se le avisa. ¿Qué harán ' +
    'los otros? Haga clic en «Un paso todos» unas diez veces, y lea en la lista de pasos ' +
    'atómicos lo que hacen en esa hoja.',
  'the others do its part': 'los otros hacen su parte',
  ['The others found its leaf not done, and did its part; what was written already stayed. ' +
    'The first step is finished, and “Next finished step” shows each further one. Go back with ' +
    'the slider and lose a worker elsewhere: try any moment at all.']:
    'Los otros hallaron su hoja sin hacer, e hicieron su parte; lo que ya estaba escrito ' +
    'quedó. El primer paso está terminado, y «Próximo paso terminado» muestra cada uno de los ' +
    'siguientes. Vuelva atrás con el control deslizante y pierda un trabajador en otra parte: ' +
    'pruebe cualquier momento.',
  'it slept, and is late': 'durmió, y llega tarde',
  ['A lost worker does nothing more. One that slept does: worker 2 wakes, as if no time had ' +
    'passed, and goes on with what it meant to do then. Step it six times and more: it finds ' +
    'its words written and its leaf raised already, changes nothing, and walks on.']:
    'Un trabajador perdido no hace nada más. Uno que durmió, sí: el trabajador 2 despierta, ' +
    'como si no hubiera pasado el tiempo, y sigue con lo que entonces quería hacer. Hágalo dar ' +
    'seis pasos y más: halla sus palabras ya escritas y su hoja ya subida, no cambia nada, y ' +
    'sigue su camino.',
  'back, knowing nothing': 'de vuelta, sin saber nada',
  ['Worker 2 comes back. All it has is one word: where it stood. Step it: it reads that, then ' +
    'the root, and works on at its leaf.']:
    'El trabajador 2 vuelve. Todo lo que tiene es una palabra: dónde estaba. Hágalo dar pasos: ' +
    'lee eso, luego la raíz, y sigue trabajando en su hoja.',
  'one of three goes on': 'uno de tres sigue',
  ['Now two of three are lost. Click “To the end”: one worker is enough, and the answer is ' +
    'the plain machine’s. That holds for every program, each number of workers and any ' +
    'schedule: it is proved. Next: the exercises, and “Find a schedule”.']:
    'Ahora dos de tres están perdidos. Haga clic en «Hasta el final»: con un trabajador basta, ' +
    'y la respuesta es la de la máquina simple. Eso vale para todo programa, cualquier número ' +
    'de trabajadores y cualquier planificación: está demostrado. A continuación: los ' +
    'ejercicios, y «Hallar una planificación».',
  'All steps are finished.': 'Todos los pasos están terminados.',
  'Step {0} is against the rule.': 'El paso {0} va contra la regla.',
  'Phase {1} (step {2}, {3}): {4} of {0} node are finished.':
    'Fase {1} (paso {2}, {3}): {4} de {0} nodo terminado.',
  'Phase {1} (step {2}, {3}): {4} of {0} nodes are finished.':
    'Fase {1} (paso {2}, {3}): {4} de {0} nodos terminados.',
  'The progress tree. {0}': 'El árbol de avance. {0}',
  'to {0} of {1}': 'a {0} de {1}',
  lost: 'perdido',
  over: 'acabado',
  asleep: 'dormido',
  awake: 'despierto',
  Step: 'Paso',
  Wake: 'Despertar',
  Sleep: 'Dormir',
  Return: 'Volver',
  Lose: 'Perder',
  Twin: 'Gemelo',
  'If lost?': '¿Y si se pierde?',
  'What if it is lost here, and the others go on to the end?':
    '¿Y si se pierde aquí y los otros siguen hasta el final?',
  'What if {1} is lost at moment {2}? The others make {0} atomic step more.':
    '¿Y si {1} se pierde en el momento {2}? Los otros dan {0} paso atómico más.',
  'What if {1} is lost at moment {2}? The others make {0} atomic steps more.':
    '¿Y si {1} se pierde en el momento {2}? Los otros dan {0} pasos atómicos más.',
  'Cells as a reader gets them': 'Las celdas como las recibe un lector',
  'On the way. Any other click ends it here.': 'En camino. Cualquier otro clic lo termina aquí.',
  'Finished: {1} of {0} step.': 'Terminados: {1} de {0} paso.',
  'Finished: {1} of {0} steps.': 'Terminados: {1} de {0} pasos.',
  'a character here is neither printable ASCII nor a tab':
    'un carácter aquí no es ni ASCII imprimible ni un tabulador',
  'a line of the header is wrong, missing or repeated':
    'una línea de la cabecera es errónea, falta o está repetida',
  'a number must stand here, in digits alone': 'aquí tiene que ir un número, solo en cifras',
  'a number is outside its limits': 'un número está fuera de sus límites',
  'no instruction stands here': 'aquí no hay ninguna instrucción',
  'the instruction has too few operands, or too many':
    'la instrucción tiene muy pocos operandos, o demasiados',
  'no register stands here (r0 to r3), nor what may stand for one':
    'aquí no hay ningún registro (r0 a r3), ni nada que pueda hacer de uno',
  'an earlier line defines this label': 'una línea anterior define esta etiqueta',
  'no line defines the label of this jump': 'ninguna línea define la etiqueta de este salto',
  'no instruction follows the line code': 'ninguna instrucción sigue a la línea code',
  'a program has at most 4,096 instructions': 'un programa tiene como máximo 4,096 instrucciones',
  'a character here has no meaning': 'un carácter aquí no tiene sentido',
  'something is missing here, left over, or in the wrong place':
    'aquí falta algo, sobra algo o está en el lugar equivocado',
  'a name here is not known': 'un nombre aquí no se conoce',
  'the name that is declared here is known already': 'el nombre que se declara aquí ya se conoce',
  'a name here stands for something that has no place here':
    'un nombre aquí está por algo que no tiene lugar aquí',
  'a number is outside its limits, or something is divided by 0':
    'un número está fuera de sus límites, o algo se divide por 0',
  'the array gets too many values, or too few without ...':
    'el arreglo recibe demasiados valores, o muy pocos sin ...',
  'a program has at most 1,048,576 cells': 'un programa tiene como máximo 1,048,576 celdas',
  'this else or end belongs to nothing': 'este else o end no pertenece a nada',
  'more than 32 brackets are open': 'hay más de 32 paréntesis o corchetes abiertos',
  'the text ends here, and a block is not closed':
    'el texto termina aquí, y un bloque no está cerrado',
  'no line of code follows the line code': 'ninguna línea de código sigue a la línea code',
  'three registers are too few for an expression of a loop: use a scalar':
    'tres registros son pocos para una expresión de un bucle: use un escalar',
  'the program is still here after 1,048,576 steps, or 2^30 in all':
    'el programa sigue aquí tras 1,048,576 pasos, o 2^30 en total',
  'with its hidden lines a program has at most 1,048,576 cells':
    'con sus líneas ocultas un programa tiene como máximo 1,048,576 celdas',
  'At {0}: {1}.': 'En {0}: {1}.',
  'Its first {0} rows are shown.': 'Se muestran sus primeras {0} filas.',
  '“:=” assigns, “=” compares.': '«:=» asigna, «=» compara.',
  '{0}: {1}.': '{0}: {1}.',
  'the text is too long': 'el texto es demasiado largo',
};
