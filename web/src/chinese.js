// The texts of the page in simplified Chinese, by their English words.
export const CHINESE = {
  'PRAM playground': 'PRAM 试验场',
  'What is proved, and what is only shown': '哪些是已证明的，哪些只是显示',
  'Proved:': '已证明：',
  'Only shown:': '只是显示：',
  ['{0} the machine’s job of each program, and every answer, state, request, conflict, atomic ' +
    'step and read that is shown, come from the proved core of this repository. {1} drawings, ' +
    'wordings and the schedule, which are this page’s own. Trusted besides are how the core ' +
    'was made for browsers, its allocator, the browser, and this page’s JavaScript: {2} of the ' +
    'repository says so at length, and {3} what is proved.']:
    '{0}每个程序对应的机器任务，以及所显示的每个答案、状态、请求、冲突、原子步骤和读取，都来自本仓库中经过证明的核心。{1}图形、措辞和调度，这些是本页面自己的。此外还须信任：核心为' +
    '浏览器所做的制作方式、它的内存分配器、浏览器以及本页面的 JavaScript。仓库中的 {2} 对此有详细说明，{3} 说明证明了什么。',
  Learn: '学习',
  'A tour, exercises and puzzles': '导览、练习和谜题',
  Keys: '按键',
  Home: 'Home',
  End: 'End',
  Space: '空格键',
  Ctrl: 'Ctrl',
  Tab: 'Tab',
  '{0} Keys act without {1}': '{0} 按键无需 {1} 即可使用',
  ['{0} and {1} go a step back and on, of a program a line, {2} and {3} to the start and the ' +
    'end, {4} plays and pauses, {5} {6} undoes and {7} {8} redoes. In lockstep {9} and {10} go ' +
    'to the next and the previous memory access, {11} to the next stop. By workers {12} steps ' +
    'all, {13} to {14} step one, {15} goes to the next change of a word, {16} to the next ' +
    'finished step. {17} reaches every control. {18}']:
    '{0} 和 {1} 后退和前进一步（对程序是一行），{2} 和 {3} 到开头和结尾，{4} 播放和暂停，{5} {6} 撤销，{7} {8} 重做。同步执行时，{9} 和 ' +
    '{10} 到下一次和上一次内存访问，{11} 到下一个停止处。由工作者执行时，{12} 让全体各走一步，{13} 到 {14} 让其中一个走一步，{15} 到下一次字的改变，' +
    '{16} 到下一个完成的步。{17} 可到达每个控件。{18}',
  Language: '语言',
  'Hand in': '提交',
  'save the solved exercises as one file': '把已解出的练习保存为一个文件',
  Judge: '评判',
  'Try this input': '试这个输入',
  'Begin anew': '重新开始',
  '◀ Before': '◀ 上一个',
  'Next ▶': '下一个 ▶',
  Close: '关闭',
  Program: '程序',
  Undo: '撤销',
  'undo the change of the text': '撤销对文本的修改',
  Redo: '重做',
  'redo the change of the text': '重做对文本的修改',
  Save: '保存',
  Reference: '参考',
  ['A PRAM has many processors that share one memory and go in lockstep: in each step each ' +
    'of them carries out one instruction, and all read before any writes. Its rule of ' +
    'writing says what happens where several write to one place.']:
    'PRAM 有许多共享一个内存的处理器，它们步调一致：每一步中每个处理器执行一条指令，并且所有读取都先于任何写入。写入规则规定多个处理器写同一位置时会发生什么。',
  Open: '打开',
  'open a file': '打开文件',
  '{0} is open.': '{0} 已打开。',
  '{0} has more than 64 MB, which no text may have.':
    '{0} 超过 64 MB，文本不能这么长。',
  '{0} is no text: its bytes are not UTF-8.': '{0} 不是文本：它的字节不是 UTF-8。',
  '{0} cannot be read.': '无法读取 {0}。',
  'save the text as a file': '把文本保存为文件',
  'Copy link': '复制链接',
  'Program: your own, or one of the gallery': '程序：自己的，或图库中的',
  'The text of the program': '程序的文本',
  'No stops': '取消所有停止处',
  ['Not all of your programs fit into what this browser keeps for the page: save those as ' +
    'files that you want to have again.']:
    '浏览器为本页面保留的空间放不下您的全部程序：请把以后还要用的保存为文件。',
  'The link': '链接',
  'The machine is shown once the program has no fault.': '程序没有错误时才显示机器。',
  'Write “{0}”': '改写为“{0}”',
  'The machine stays on the last text that had no fault.': '机器停留在最后一个没有错误的文本。',
  'In lockstep': '同步执行',
  'By workers': '由工作者执行',
  Views: '视图',
  'to the start': '到开头',
  '◀ Back': '◀ 后退',
  'after step': '步数',
  'Step ▶': '前进 ▶',
  'to the end': '到结尾',
  '◀◀ Access': '◀◀ 访问',
  'previous memory access': '上一次内存访问',
  'Access ▶▶': '访问 ▶▶',
  'next memory access': '下一次内存访问',
  'To a stop': '到停止处',
  'to the next stop': '到下一个停止处',
  '▶ Play': '▶ 播放',
  'steps a second': '每秒步数',
  '{0} the machine’s steps': '{0} 机器的步',
  'Memory, and who reads and writes it in the next step': '内存，以及下一步中谁读、谁写',
  'is read': '被读取',
  'will be written': '将被写入',
  'was written just now': '刚被写入',
  disputed: '有争议',
  'Save picture': '保存图片',
  Steps: '各步',
  'at work': '在工作',
  'read a cell': '读单元',
  'write a cell': '写单元',
  'go to a step': '到某一步',
  'Costs and model': '代价与模型',
  Processors: '处理器',
  'workers {0}': '工作者 {0}',
  'Step all': '全体一步',
  'step all 10 times': '全体各走 10 步',
  'step all 100 times': '全体各走 100 步',
  'Next change': '下一次改变',
  'to the next change of a word': '到下一次字的改变',
  'Next finished step': '下一个完成的步',
  'to the next finished step': '到下一个完成的步',
  'To the end': '直到结束',
  'rounds a second': '每秒轮数',
  'undo the change of the schedule': '撤销对调度的修改',
  'redo the change of the schedule': '重做对调度的修改',
  'Start again': '从头再来',
  'one moment back': '后退一个时刻',
  moment: '时刻',
  'one moment on': '前进一个时刻',
  'to the last moment': '到最后一个时刻',
  'moment {0}': '时刻 {0}',
  'Back to what was': '回到原来的状态',
  'The schedule is full: a page holds 400,000 acts.': '调度已满：一个页面最多容纳 400,000 个动作。',
  'Progress tree': '进度树',
  'finished last below:': '其下最后完成的：',
  compact: '紧凑',
  wide: '宽',
  ['This is the {0} form of the board, as in {1}: a leaf for each processor. {2} and {3} use ' +
    'the {4} form, where a leaf stands for up to 64 processors and workers start far apart. ' +
    'The number in a node is the phase that is finished below it.']:
    '这是黑板的{0}形式，与 {1} 中相同：每个处理器一片叶子。{2} 和 {3} 使用{4}形式，其中一片叶子最多代表 64 个处理器，而且各工作者的起点相距很远。结点中的数字是其' +
    '下已完成的阶段。',
  'Cells as a reader gets them, each with its step': '读者所得到的各单元，各带其步',
  'The two words of a place': '一个位置的两个字',
  cell: '单元',
  'register of processor': '处理器的寄存器',
  'counter of processor': '处理器的计数器',
  'place {0}': '位置 {0}',
  'number {0}': '编号 {0}',
  'register {0}': '寄存器 {0}',
  'Changes of the place': '该位置的改变',
  'Atomic steps, the newest first': '原子步骤，最新的在前',
  'None yet.': '还没有。',
  'Later ones': '较晚的',
  'Atomic steps': '原子步骤',
  'Earlier ones': '较早的',
  'An adversary': '对手',
  ['Whatever it does, the answer is the plain machine’s: that is the theorem. What it finds ' +
    'here is evidence.']:
    '无论它做什么，答案都是普通机器的答案：这就是定理。它在这里找到的只是佐证。',
  'Random schedule': '随机调度',
  'seed {0}': '种子 {0}',
  'how mean {0}': '有多坏 {0}',
  'kind: some sleep for a while': '和善：有的睡一会儿',
  'mean: some are lost, too': '坏：还有的会失去',
  'cruel: they are lost again and again': '残忍：一再失去',
  'The schedule is full before the job ends.': '任务还没有结束，调度就满了。',
  'The answer is the plain machine’s.': '答案与普通机器的相同。',
  'ANOTHER ANSWER THAN the plain machine’s.': '答案与普通机器的不同！',
  'Seed {0}, {1}.': '种子 {0}，{1}。',
  'Atomic steps: {0}. Losses: {1}. Returns: {2}. Sleeps: {3}.':
    '原子步骤：{0}。失去：{1}。回来：{2}。睡眠：{3}。',
  'A click ended it.': '被点击终止。',
  'Acts so far: {0}.': '至今的动作：{0}。',
  'worst moments to lose each worker': '最坏时刻：让每个工作者失去',
  'Worst moments': '最坏时刻',
  'from here on, each worker but one is lost; within 2,000 schedules and 10 seconds':
    '从这里起，除一个外每个工作者都会失去；最多试 2,000 个调度，10 秒',
  'Schedules tried: {0}.': '试过的调度：{0}。',
  ['{0}, lost at moment {1}: those who are left make {2} atomic steps from here on, and {3} if ' +
    'the moment is the kindest. Moments tried: {4} of {5}.']:
    '{0} 在时刻 {1} 失去：其余的从这里起共走 {2} 个原子步骤，在最和善的时刻则走 {3} 个。试过的时刻：{5} 个中的 {4} 个。',
  'Fewer than two workers are going: nobody is to be lost.': '在工作的少于两个：没有谁可以失去。',
  'All schedules': '所有调度',
  '{0} worker 1 may be lost': '{0} 工作者 1 可能失去',
  'Show the slowest': '显示最慢的',
  'Take a small program': '取一个小程序',
  'a small program': '一个小程序',
  'States met so far: {0}.': '至今遇到的状态：{0}。',
  ['Not all schedules were met: it ended after {0} states, which is what a page holds. Try ' +
    'fewer workers, or a smaller program.']:
    '没有遇到所有调度：到 {0} 个状态就结束了，一个页面只容得下这么多。请减少工作者，或换更小的程序。',
  'Different ends met: {0}.': '遇到的不同终点：{0}。',
  'Each has the plain machine’s answer: the core replayed a schedule to it.':
    '每个都是普通机器的答案：核心重放了通向它的一个调度。',
  'NOT EACH HAS the plain machine’s answer.': '并非每个都是普通机器的答案！',
  ['All schedules: {0}. States, each met once: {1}. Different atomic steps, each told by the ' +
    'core: {2}.']:
    '所有调度：{0}。状态，每个只遇到一次：{1}。不同的原子步骤，每个都由核心给出：{2}。',
  'Different ends: {0}.': '不同终点：{0}。',
  'The shortest schedule has {0} atomic steps, the slowest {1}.':
    '最短的调度有 {0} 个原子步骤，最慢的有 {1} 个。',
  'Take the schedule home: a plan for {0}': '把调度带走：供 {0} 使用的计划',
  'Save plan.csv': '保存 plan.csv',
  'The plan': '计划',
  'The machine': '机器',
  'The whole page, with the program': '完整页面，带此程序',
  active: '活动',
  waits: '等待',
  gone: '已退出',
  done: '完成',
  'an act of a schedule is unknown': '调度中有未知的动作',
  'no such worker': '没有这个工作者',
  'too many twins': '分身太多',
  'a schedule is not written so': '调度不是这样写的',
  'too many acts': '动作太多',
  '{0} is out of its limits': '{0} 超出其界限',
  'there is no such example': '没有这个例子',
  '{0}, and other lines': '{0}，以及其他行',
  'from cell {0}': '从单元 {0} 起',
  'earlier cells': '前面的单元',
  'later cells': '后面的单元',
  ['This run needs {0}. With other values at the start the same program may cost more, and ' +
    'need a stronger model.']:
    '这次运行需要 {0}。换成别的初值，同一程序的代价可能更高，并需要更强的模型。',
  ['A model is judged by the steps of the machine, of which a line is several: two who read ' +
    'one place in a line may read it in different steps.']:
    '模型按机器的步来判断，而一行含有若干步：在同一行中读同一位置的两个处理器，可能是在不同的步中读的。',
  steps: '步数',
  processors: '处理器数',
  Growth: '增长',
  'constant {0}': '常量 {0}',
  'values {0}': '取值 {0}',
  'Try them': '逐个运行',
  'A conflict ends it.': '运行因冲突而结束。',
  'There is no such program, or it is too large.': '没有这样的程序，或者它太大。',
  'The values are numbers, at most {0} of them.': '取值是数字，最多 {0} 个。',
  'All values were tried.': '所有取值都已运行。',
  '{0} = {1} is tried.': '正在运行 {0} = {1}。',
  'processors times steps': '处理器数乘步数',
  'their product': '二者之积',
  'instructions executed': '执行的指令数',
  'most processors at work': '同时工作的处理器最多数',
  'steps with a read': '有读取的步数',
  'steps with a write': '有写入的步数',
  'Not {0}: in step {1} processors {2} and {3} read {4}.': '不是 {0}：在第 {1} 步，处理器 {2} 和 {3} 都读 {4}。',
  'Not {0}: in step {1} processors {2} and {3} write {4}.': '不是 {0}：在第 {1} 步，处理器 {2} 和 {3} 都写 {4}。',
  'Not {0}: in step {1} processors {2} and {3} write different values to {4}.':
    '不是 {0}：在第 {1} 步，处理器 {2} 和 {3} 把不同的值写入 {4}。',
  'Not {0}: in line {5}, step {1}, processors {2} and {3} read {4}.':
    '不是 {0}：在第 {5} 行、第 {1} 步，处理器 {2} 和 {3} 都读 {4}。',
  'Not {0}: in line {5}, step {1}, processors {2} and {3} write {4}.':
    '不是 {0}：在第 {5} 行、第 {1} 步，处理器 {2} 和 {3} 都写 {4}。',
  'Not {0}: in line {5}, step {1}, processors {2} and {3} write different values to {4}.':
    '不是 {0}：在第 {5} 行、第 {1} 步，处理器 {2} 和 {3} 把不同的值写入 {4}。',
  'from line {0}': '从第 {0} 行起',
  'earlier lines': '前面的行',
  'later lines': '后面的行',
  'Stop here, or no more': '在此停止，或不再停止',
  'To this line': '到这一行',
  'It ended with {0} processor still running (P{1} in line {2}).':
    '结束时还有 {0} 个处理器在运行（P{1} 在第 {2} 行）。',
  'It ended with {0} processors still running (P{1} in line {2}).':
    '结束时还有 {0} 个处理器在运行（P{1} 在第 {2} 行）。',
  'All had stopped after step {0}.': '第 {0} 步之后全部停止。',
  'Processor {0} stopped in step {1} at line {2}: no such cell.':
    '处理器 {0} 在第 {1} 步、第 {2} 行停止：没有这个单元。',
  'Processor {0} stopped in step {1} at line {2}: its array has no such place.':
    '处理器 {0} 在第 {1} 步、第 {2} 行停止：它的数组没有这个位置。',
  'own numbers': '自己的编号',
  'A[i] becomes i.': 'A[i] 变为 i。',
  double: '加倍',
  'B[i] becomes twice A[i], modulo 2^32.': 'B[i] 变为 A[i] 的两倍，模 2^32。',
  reverse: '反转',
  'B becomes A in reverse: B[0] is A[n - 1].': 'B 变为 A 的逆序：B[0] 是 A[n - 1]。',
  neighbours: '相邻元素',
  'B[i] becomes A[i] + A[i + 1], and B[n - 1] becomes A[n - 1] + A[0], modulo 2^32.':
    'B[i] 变为 A[i] + A[i + 1]，B[n - 1] 变为 A[n - 1] + A[0]，模 2^32。',
  broadcast: '广播',
  'Each A[i] becomes A[0]. No two may read it in one step: copies make copies.':
    '每个 A[i] 变为 A[0]。任何两个都不得在同一步中读它：由副本再造副本。',
  'is a seven among them': '其中有没有 7',
  'found becomes 1 if some A[i] is 7, and else stays 0.': '若某个 A[i] 是 7，则 found 变为 1，否则保持 0。',
  sum: '求和',
  'total becomes the sum of all A[i], modulo 2^32. n is a power of two. A may change.':
    'total 变为所有 A[i] 之和，模 2^32。n 是 2 的幂。A 可以改变。',
  maximum: '最大值',
  'greatest becomes the greatest of all A[i]. n is a power of two. A may change.':
    'greatest 变为所有 A[i] 中最大的。n 是 2 的幂。A 可以改变。',
  'prefix sums': '前缀和',
  'A[i] becomes A[0] + .. + A[i], modulo 2^32. n is a power of two.':
    'A[i] 变为 A[0] + .. + A[i]，模 2^32。n 是 2 的幂。',
  'ranks in a list': '表中的位次',
  ['N[i] is the element after i in a list, and of its last one that itself. R[i] becomes how ' +
    'many come after i. N may change.']:
    'N[i] 是链表中 i 之后的元素，对最后一个元素则是它自己。R[i] 变为 i 之后元素的个数。N 可以改变。',
  'sums in segments': '分段求和',
  ['Where F[i] is 1 a segment begins, and at A[0], too; else F[i] is 0. A[i] becomes the sum ' +
    'of its segment\'s values up to A[i], modulo 2^32. F may change.']:
    'F[i] 为 1 处开始一段，A[0] 处也是；否则 F[i] 为 0。A[i] 变为其所在段中直到 A[i] 的值之和，模 2^32。F 可以改变。',
  compaction: '压缩',
  ['The values of A that are not 0 go to the front of B, in their order; count becomes how ' +
    'many they are. The other places of B stay 0. n is a power of two.']:
    'A 中非 0 的值按原来的次序放到 B 的前面；count 变为它们的个数。B 的其余位置保持 0。n 是 2 的幂。',
  'prefix sums by few': '少数处理器求前缀和',
  ['A[i] becomes A[0] + .. + A[i], modulo 2^32, of n values by p processors; n is a multiple ' +
    'of p. Each processor makes about as many additions as it has values.']:
    'A[i] 变为 A[0] + .. + A[i]，模 2^32，n 个值由 p 个处理器完成；n 是 p 的倍数。每个处理器作的加法大约与它的值一样多。',
  'maximum in constant time': '常数时间求最大值',
  'greatest becomes the greatest of all A[i]. There is a processor for each pair of values.':
    'greatest 变为所有 A[i] 中最大的。每一对值有一个处理器。',
  'merge of two rows': '归并两列',
  ['A and B are sorted, each from its least value to its greatest. C becomes all their ' +
    'values, sorted. n is a power of two.']:
    'A 和 B 都已从小到大排好序。C 变为它们全部的值，排好序。n 是 2 的幂。',
  sort: '排序',
  'A becomes sorted, from its least value to its greatest. n is a power of two.':
    'A 变为从小到大排好序。n 是 2 的幂。',
  'matrix product': '矩阵乘积',
  ['C becomes the product of A and B: C[r, c] is A[r, 0] * B[0, c] + .. + A[r, n - 1] * B[n - ' +
    '1, c], modulo 2^32. There is a processor for each place of C.']:
    'C 变为 A 与 B 的乘积：C[r, c] 是 A[r, 0] * B[0, c] + .. + A[r, n - 1] * B[n - 1, c]，模 2^32。C ' +
    '的每个位置有一个处理器。',
  'depths in a tree': '树中的深度',
  ['A tour goes around a tree of n nodes: each edge is an arc down and one up. next[a] is the ' +
    'arc after a, and of the last one that itself; down[a] is 1 if a leads down, else 0; ' +
    'head[a] is the node that it leads to. depth[v] becomes how many edges v lies below the ' +
    'root, where the tour begins and ends. next may change.']:
    '一条回路绕行一棵有 n 个结点的树：每条边是一段向下的弧和一段向上的弧。next[a] 是 a 之后的弧，最后一段的是它自己；a 向下时 down[a] 为 1，否则为 ' +
    '0；head[a] 是它通向的结点。depth[v] 变为 v 在根之下的边数，回路从根开始，到根结束。next 可以改变。',
  'ways in a graph': '图中的路',
  ['A[a, b] is 1 if an edge leads from node a to node b, else 0. W[a, b] becomes 1 if a way ' +
    'does, of one edge, more or none, and else 0. There is a processor for each three nodes. A ' +
    'may change.']:
    '若有边从结点 a 通到结点 b，则 A[a, b] 为 1，否则为 0。若有路从 a 通到 b（一条边、多条边或没有边），则 W[a, b] 变为 1，否则为 ' +
    '0。每三个结点有一个处理器。A 可以改变。',
  'connected components': '连通分量',
  ['Edge i joins the nodes U[i] and V[i], which may be the same. C[v] becomes the least node ' +
    'that v is joined to, by one edge, more or none. m is at least n.']:
    '边 i 连接结点 U[i] 和 V[i]，它们可以相同。C[v] 变为与 v 相连的最小结点，经由一条边、多条边或没有边。m 至少是 n。',
  '“{0}” needs two registers, as in “{1}”, or in pram 3 of an array A “{2}”.':
    '“{0}”需要两个寄存器，如“{1}”；在 pram 3 中对数组 A 可写“{2}”。',
  '“{0}” needs no operand, as in “{1}”.': '“{0}”不需要操作数，如“{1}”。',
  '“{0}” needs one register, as in “{1}”.': '“{0}”需要一个寄存器，如“{1}”。',
  '“{0}” needs a register and a number, as in “{1}”.': '“{0}”需要一个寄存器和一个数，如“{1}”。',
  '“{0}” needs three registers, as in “{1}”.': '“{0}”需要三个寄存器，如“{1}”。',
  '“{0}” needs a register and a label, as in “{1}”.': '“{0}”需要一个寄存器和一个标号，如“{1}”。',
  '“{0}” needs one label, as in “{1}”.': '“{0}”需要一个标号，如“{1}”。',
  'There are 1 to 65,536 cells, with pram 3 up to 1,048,576.':
    '单元有 1 到 65,536 个，用 pram 3 可到 1,048,576 个。',
  'There are 1 to 1,024 processors, with pram 3 up to 65,536.':
    '处理器有 1 到 1,024 个，用 pram 3 可到 65,536 个。',
  'There are at most 4,294,967,295 steps.': '步数最多 4,294,967,295。',
  'A cell must be one that there is, and a value is at most 4,294,967,295.':
    '单元必须存在，值最大为 4,294,967,295。',
  'An array has a cell at least, and all of its cells must be ones that there are.':
    '数组至少有一个单元，而且它的所有单元都必须存在。',
  'A number is at most 4,294,967,295.': '数最大为 4,294,967,295。',
  ['The lines before the program are, in this order: pram 1, cells M, procs N, steps T, any ' +
    'number of init CELL VALUE, code. With pram 2, a line rule common, rule priority or rule ' +
    'crew stands after steps. With pram 3, any number of array NAME BASE LENGTH stand after ' +
    'that, and an init may have more values, for the cells that follow.']:
    '程序之前的各行依次是：pram 1、cells M、procs N、steps T、任意多个 init CELL VALUE、code。用 pram 2 时，steps 之后有一行' +
    ' rule common、rule priority 或 rule crew。用 pram 3 时，其后有任意多个 array NAME BASE LENGTH，而且一个 ' +
    'init 可以有更多的值，依次给后面的单元。',
  'The character of number {0} in column {1} is not allowed, in comments either.':
    '第 {1} 列编号为 {0} 的字符不允许出现，注释中也不行。',
  'The character “{0}” in column {1} is not allowed, in comments either.':
    '第 {1} 列的字符“{0}”不允许出现，注释中也不行。',
  'The character of number {0} in column {1} is allowed in comments alone.':
    '第 {1} 列编号为 {0} 的字符只允许出现在注释中。',
  'The character “{0}” in column {1} is allowed in comments alone.':
    '第 {1} 列的字符“{0}”只允许出现在注释中。',
  '“{0}” names an array already or can name none, or array does not stand here.':
    '“{0}”已经是一个数组的名字，或者不能作数组的名字，或者 array 不该在这里。',
  'Cell {0} was given a value before, or init does not stand here.': '单元 {0} 之前已有值，或者 init 不该在这里。',
  'A rule is common, priority or crew, and stands only in a text of pram 2 or 3.':
    '规则是 common、priority 或 crew，只出现在 pram 2 或 3 的文本中。',
  '“{0}” does not stand here.': '“{0}”不该在这里。',
  'A line is missing.': '缺少一行。',
  '“{0}” must be a number, as in “cells 8” or “set r1 5”.': '“{0}”必须是数，如“cells 8”或“set r1 5”。',
  'A number is missing, as in “cells 8” or “set r1 5”.': '缺少一个数，如“cells 8”或“set r1 5”。',
  'An instruction must stand after the label, on the same line.': '标号之后必须有一条指令，在同一行。',
  'A label is a letter or _, then letters, digits and _, then “:”.':
    '标号是一个字母或 _，后跟字母、数字和 _，最后是“:”。',
  'There is no instruction “{0}”. There are {1}; shl, shr, div and rem with pram 3 alone.':
    '没有指令“{0}”。有 {1}；shl、shr、div 和 rem 只在 pram 3 中有。',
  'An operand is no register.': '有一个操作数不是寄存器。',
  '“{0}” is no register.': '“{0}”不是寄存器。',
  'It is “{0}”.': '它是“{0}”。',
  'A line defines “{0}” by beginning with “{0}:”.': '一行以“{0}:”开头，就定义了“{0}”。',
  'this line is refused': '这一行不被接受',
  '{0}.': '{0}。',
  empty: '空',
  'your own: {0}': '自己的：{0}',
  'Your own': '自己的',
  'Gallery, in pardo': '图库，用 pardo 写的',
  'Gallery, for the machine itself': '图库，直接为机器写的',
  'the program of this link': '此链接中的程序',
  'a new program': '新程序',
  'name {0}': '名称 {0}',
  Rename: '重命名',
  Cancel: '取消',
  'Undo the deletion': '撤销删除',
  '“{0}” is deleted.': '“{0}”已删除。',
  'deleted: {0}': '已删除：{0}',
  'rename this program': '重命名此程序',
  'delete this program': '删除此程序',
  'there is no such lesson': '没有这一课',
  'line {0}: {1}': '第 {0} 行：{1}',
  'Processor {0} is gone since line {1}, where its array has no such place.':
    '处理器 {0} 从第 {1} 行起已退出，那里它的数组没有这个位置。',
  'a line of the header is missing.': '头部缺少一行。',
  'two processors write one place in line {0}, against the rule.': '两个处理器在第 {0} 行写同一个位置，违反规则。',
  'a value is not the one that is wanted.': '有一个值不是所要的。',
  'a processor is gone in line {0}.': '一个处理器在第 {0} 行退出。',
  'a length is not the one that is wanted.': '有一个长度不是所要的。',
  'it needs {1}: two processors read one place in line {0}.': '它需要 {1}：两个处理器在第 {0} 行读同一个位置。',
  'it needs {1}: two processors write one place in line {0}.': '它需要 {1}：两个处理器在第 {0} 行写同一个位置。',
  'it needs {1}: two processors write different values to one place in line {0}.':
    '它需要 {1}：两个处理器在第 {0} 行向同一个位置写不同的值。',
  'all is right, but it takes too much time.': '全部正确，但时间太多。',
  'all is right, but it makes too many operations.': '全部正确，但操作太多。',
  'all is right, but the machine makes too many steps.': '全部正确，但机器的步数太多。',
  'all is right, but in too many lines of code.': '全部正确，但代码行太多。',
  'Not yet, on input {0} of {1}, which is not shown: {2}': '还没有，在第 {0} 个输入（共 {1} 个，未显示）上：{2}',
  'processor {0} is gone in line {1}.':
    '处理器 {0} 在第 {1} 行退出。',
  '{0} has length {1}, wanted {2}.':
    '{0} 的长度是 {1}，应为 {2}。',
  '{0} holds {1}, wanted {2}.': '{0} 是 {1}，应为 {2}。',
  '{0} holds {1}, wanted {2}; no line wrote it.': '{0} 是 {1}，应为 {2}；没有哪一行写过它。',
  '{0} holds {1}, wanted {2}; line {3} wrote it last.': '{0} 是 {1}，应为 {2}；最后写它的是第 {3} 行。',
  'Not yet: the line “{0}” is missing. “Begin anew” brings it back.': '还不对：缺少行“{0}”。“重新开始”可以把它找回来。',
  'Not yet, {0}': '还不对，{0}',
  'nothing is named “{1}”, with the input in its line {0}': '对其第 {0} 行的输入，没有名为“{1}”的东西',
  'Inputs that are shown': '显示的输入',
  input: '输入',
  '{0} wanted': '要求的 {0}',
  'Time at most {0}.': '时间至多 {0}。',
  'Operations at most {0}.': '操作至多 {0}。',
  'Steps of the machine at most {0}.': '机器的步数至多 {0}。',
  'Lines of code at most {0}.': '代码行数至多 {0}。',
  'it has a character that no text here may have': '其中有此处任何文本都不得有的字符',
  'the first line has to be “exercise 1”': '第一行必须是“exercise 1”',
  'no line of an exercise begins with this word': '习题中没有以这个词开头的行',
  'something is wrong behind the first word': '第一个词之后有错',
  'it may stand once, and stands a second time': '它只能出现一次，这里是第二次',
  'the text ends without “{0}”': '文本到结尾都没有“{0}”',
  'this input does not say what is wanted, and there is no reference': '这个输入没有说要求什么，也没有参考程序',
  'it is too long': '它太长',
  'the text is no exercise: {0}': '这个文本不是习题：{0}',
  'Under {0}.': '在 {0} 下。',
  'Judge tries your lines on {0} inputs, of which {1} are not shown.':
    '“评判”用 {0} 个输入试您的代码行，其中 {1} 个不显示。',
  '{0} cannot be opened: {1}.': '无法打开 {0}：{1}。',
  'processors {0} and {1} write {2} in line {3}, against the rule {4}.':
    '处理器 {0} 和 {1} 在第 {3} 行写 {2}，违反规则 {4}。',
  'processors {0} and {1} write different values to {2} in line {3}, against the rule {4}.':
    '处理器 {0} 和 {1} 在第 {3} 行向 {2} 写不同的值，违反规则 {4}。',
  'it needs {4}: processors {0} and {1} read {2} in line {3}.':
    '它需要 {4}：处理器 {0} 和 {1} 在第 {3} 行读 {2}。',
  'it needs {4}: processors {0} and {1} write {2} in line {3}.':
    '它需要 {4}：处理器 {0} 和 {1} 在第 {3} 行写 {2}。',
  'it needs {4}: processors {0} and {1} write different values to {2} in line {3}.':
    '它需要 {4}：处理器 {0} 和 {1} 在第 {3} 行向 {2} 写不同的值。',
  'all is right, but its time is {0}; at most {1} is allowed here.': '结果都对，但时间是 {0}；这里至多允许 {1}。',
  'all is right, but it makes {0} operations; at most {1} are allowed here.':
    '结果都对，但作了 {0} 次操作；这里至多允许 {1} 次。',
  'all is right, but the machine makes {0} steps; at most {1} are allowed here.':
    '结果都对，但机器走了 {0} 步；这里至多允许 {1} 步。',
  'all is right, but in {0} lines of code; at most {1} are allowed.':
    '结果都对，但用了 {0} 行代码；至多允许 {1} 行。',
  'Not yet, on input {0} of {1}: {2}': '还没有，在第 {0} 个输入（共 {1} 个）上：{2}',
  'Not yet, on input {0} of {1} ({2}): {3}': '还没有，在第 {0} 个输入（共 {1} 个，{2}）上：{3}',
  'the input in its line {0} sets a bad header: {1}': '其第 {0} 行的输入给出错误的头部：{1}',
  'the input in its line {0} says badly what is wanted: {1}': '其第 {0} 行的输入对要求的值写得不对：{1}',
  'a bar has no value with the input in its line {0}: {1}': '对其第 {0} 行的输入，有一个界限没有值：{1}',
  'its reference fails with the input in its line {0}: {1}': '其参考程序在第 {0} 行的输入上失败：{1}',
  'its reference ends with other values than the input in its line {0} wants':
    '其参考解结束时的值与其第 {0} 行的输入所要的不同',
  'its reference ends in a conflict with the input in its line {0}': '其参考程序在第 {0} 行的输入上以冲突告终',
  'This exercise cannot be judged by: {0}': '无法按这道习题评判：{0}',
  'Right on all {0} inputs.': '在全部 {0} 个输入上都正确。',
  'Right on all {0} inputs, under {1}.': '在全部 {0} 个输入上都正确，在 {1} 下。',
  'Not yet: the text is too long.': '还没有：文本太长。',
  'your own': '您自己的',
  'Exercise: {0}': '习题：{0}',
  '{0}, this input': '{0}，这个输入',
  'Your own exercise: {0}': '您自己的习题：{0}',
  'Tour {0} of {1}: {2}': '导览 {0}/{1}：{2}',
  'Exercise {0}': '练习 {0}',
  'Exercise {0} of {1}: {2}': '练习 {0}/{1}：{2}',
  'Find a schedule {0} of {1}: {2}': '找一个调度 {0}/{1}：{2}',
  'A tour: losing a worker': '导览：失去一个工作者',
  Exercises: '练习',
  'Find a schedule': '找一个调度',
  'It is being judged.': '正在评判。',
  'Not yet: the program has a fault.': '还不对：程序有错误。',
  'The link is copied.': '链接已复制。',
  'Copy it from the field.': '请从输入框中复制。',
  'The program or the schedule is too long for a link: save it, and send the file.':
    '程序或调度太长，放不进链接：请保存，然后发送文件。',
  ['This page is a file of yours, so what is copied is no whole link: others need the file ' +
    'playground.html too, and open it with this, from # on, after its address.']:
    '本页面是您自己的一个文件，所以复制的不是完整的链接：别人还需要文件 playground.html，并在它的地址后面加上从 # 起的这一部分来打开。',
  'It works for those alone who reach this computer or its network.': '它只对能连到这台计算机或其网络的人有用。',
  'The address can\'t be read: {0}.': '无法读取地址：{0}。',
  'Cells after this step': '这一步之后的各单元',
  'Searching: step {0}.': '正在查找：第 {0} 步。',
  'No earlier memory access.': '前面没有内存访问了。',
  'No later memory access.': '后面没有内存访问了。',
  'No stop is reached any more.': '不会再到停止处了。',
  'No processor ever comes to line {0}.': '没有处理器会到第 {0} 行。',
  'Making the start.': '正在生成起点。',
  'Making {0} step.': '正在生成 {0} 步。',
  'Making {0} steps.': '正在生成 {0} 步。',
  'lines done': '完成的行',
  ['Conflict: step {0} is against the rule {1}, at {2}. Processor {3} writes {4} (line {5}). ' +
    'Processor {6} writes {7} (line {8}). The machine ends before this step.']:
    '冲突：第 {0} 步违反规则 {1}，位置是 {2}。处理器 {3} 写 {4}（行 {5}）。处理器 {6} 写 {7}（行 {8}）。机器在这一步之前结束。',
  'Done: the job ends after {0} step. {1}': '完成：任务在 {0} 步后结束。{1}',
  'Done: the job ends after {0} steps. {1}': '完成：任务在 {0} 步后结束。{1}',
  'All processors have stopped.': '所有处理器都已停止。',
  '{0} processor of {1} has an instruction to do.': '{1} 个处理器中有 {0} 个要执行指令。',
  '{0} processors of {1} have an instruction to do.': '{1} 个处理器中有 {0} 个要执行指令。',
  'After step {0} of {1}. {2}': '已过 {0} 步，共 {1} 步。{2}',
  ['Conflict: line {0} is against the rule {1}, at {2}: processor {3} writes {4}, processor ' +
    '{5} writes {6}. The program ends before it.']:
    '冲突：第 {0} 行违反规则 {1}，位置是 {2}：处理器 {3} 写 {4}，处理器 {5} 写 {6}。程序在它之前结束。',
  'No processor is active with {0}': '没有活动的处理器，{0}',
  'No processor is active': '没有活动的处理器',
  '{1}, {0} of {2}, is active with {3}': '{1} 活动（{2} 个中的 {0} 个），{3}',
  '{1}, {0} of {2}, are active with {3}': '{1} 活动（{2} 个中的 {0} 个），{3}',
  '{1}, {0} of {2}, is active': '{1} 活动（{2} 个中的 {0} 个）',
  '{1}, {0} of {2}, are active': '{1} 活动（{2} 个中的 {0} 个）',
  '{0}, {1} of the machine': '{0}，机器的 {1}',
  '{0} line': '{0} 行',
  '{0} lines': '{0} 行',
  '{0} step': '{0} 步',
  '{0} steps': '{0} 步',
  'Done: the program is over after {0}. {1}': '完成：程序已结束，共 {0}。{1}',
  'Line {0}: {1}. {2}. Done so far: {3}.': '第 {0} 行：{1}。{2}。到此已做：{3}。',
  'It is being read.': '正在读取。',
  'It is being compiled, and run once.': '正在编译并运行一次。',
  'Something went wrong in this page: {0}': '本页面出了问题：{0}',
  'worker {0}': '工作者 {0}',
  'twin {0} (of worker {1})': '分身 {0}（工作者 {1} 的）',
  'the data place that processor {0} asks for': '处理器 {0} 所请求的数据位置',
  'the value that processor {0} asks for': '处理器 {0} 所请求的值',
  'the next counter that processor {0} asks for': '处理器 {0} 所请求的下一个计数器',
  'the root and only leaf': '根，也是唯一的叶子',
  'the root': '根',
  'node {0}': '结点 {0}',
  'the leaf of processor {0}': '处理器 {0} 的叶子',
  'the spare leaf {0}': '空闲叶子 {0}',
  'the conflict word': '冲突字',
  'the position of worker {0}': '工作者 {0} 的位置',
  'the older word of {0}': '{0} 的较旧的字',
  'the newer word of {0}': '{0} 的较新的字',
  'the claim on {0}': '对 {0} 的占用',
  'a spare word': '空闲字',
  'nothing finished': '什么都没完成',
  'finished up to step {0}, {1}': '完成到第 {0} 步，{1}',
  'nothing yet': '还没有',
  '{0} for step {1}': '{0}，用于第 {1} 步',
  'none for step {0}': '无，用于第 {0} 步',
  none: '无',
  'step {0}': '第 {0} 步',
  'processor {0} in step {1}': '第 {1} 步的处理器 {0}',
  '{0} of step {1}': '{0}，属第 {1} 步',
  '{0} finds {1} raised already: {2}': '{0} 发现{1}已经提高：{2}',
  '{0} marks {1}: {2}': '{0} 标记{1}：{2}',
  '{0} sets {1}: {2}': '{0} 设定{1}：{2}',
  '{0} writes {1}: {2}': '{0} 写入{1}：{2}',
  '{0} names the conflict: {1}': '{0} 指出冲突：{1}',
  '{0} finds the conflict named already: {1}': '{0} 发现冲突已被指出：{1}',
  '{0} swaps {1}: {2} becomes {3}': '{0} 交换{1}：{2} 变为 {3}',
  '{0} comes too late to swap a word of {1}: it stays {2}': '{0} 来晚了，未能交换 {1} 的一个字：它仍是 {2}',
  '{0} reads {1}: {2}': '{0} 读取{1}：{2}',
  '{0} walks to {1}': '{0} 走到{1}',
  '{0} makes no step: it is lost or over': '{0} 没有走步：它已失去或已结束',
  '{0} is lost, with all that it knew': '{0} 失去了，连同它所知的一切',
  '{0} comes back, knowing nothing': '{0} 回来了，什么都不知道',
  '{0} falls asleep': '{0} 睡着了',
  '{0} wakes, as if no time had passed': '{0} 醒来，就像时间没有过去',
  '{0} starts beside it': '{0} 在旁边开始',
  'Lost.': '失去。',
  'Comes back: is about to read where it stood.': '回来：将要读取它原来所在的位置。',
  'Begins at {1}: looks for the phase; {0} step of its script made.': '在{1}开始：寻找阶段；其脚本已做 {0} 步。',
  'Begins at {1}: looks for the phase; {0} steps of its script made.': '在{1}开始：寻找阶段；其脚本已做 {0} 步。',
  'At {1}: phase {2} (step {3}, {4}); {0} step of its script made.':
    '在{1}：阶段 {2}（第 {3} 步，{4}）；其脚本已做 {0} 步。',
  'At {1}: phase {2} (step {3}, {4}); {0} steps of its script made.':
    '在{1}：阶段 {2}（第 {3} 步，{4}）；其脚本已做 {0} 步。',
  'Over: all steps are finished.': '结束：所有步都已完成。',
  'Over: step {0} is against the rule.': '结束：第 {0} 步违反规则。',
  'read by {0}': '{0} 读',
  'written by {0}': '{0} 写',
  'Done.': '完成。',
  'Done: the same answer as the plain machine’s. {0}': '完成：与普通机器的答案相同。{0}',
  'Done: ANOTHER ANSWER THAN the plain machine’s. {0}': '完成：与普通机器的答案不同！{0}',
  'Conflict in step {1} at {2}.': '第 {1} 步有冲突，位置是 {2}。',
  'Conflict in step {1} at {2}: the same answer as the plain machine’s. {0}':
    '第 {1} 步有冲突，位置是 {2}：与普通机器的答案相同。{0}',
  'Conflict in step {1} at {2}: ANOTHER ANSWER THAN the plain machine’s. {0}':
    '第 {1} 步有冲突，位置是 {2}：与普通机器的答案不同！{0}',
  'Unfinished: the last finished step is {0}.': '未完成：最后完成的是第 {0} 步。',
  apply: '应用',
  compute: '计算',
  verify: '核实',
  claim: '占用',
  'first word': '第一个字',
  'second word': '第二个字',
  '{0} swaps the first word: {1} becomes {2}': '{0} 交换第一个字：{1} 变为 {2}',
  '{0} swaps the second word: {1} becomes {2}': '{0} 交换第二个字：{1} 变为 {2}',
  '{0}, from moment {1} to {2}': '{0}，从时刻 {1} 到 {2}',
  '{1}: the first word says {2}, the second {3}; {0} change so far.':
    '{1}：第一个字是 {2}，第二个字是 {3}；到此改变 {0} 次。',
  '{1}: the first word says {2}, the second {3}; {0} changes so far.':
    '{1}：第一个字是 {2}，第二个字是 {3}；到此改变 {0} 次。',
  'cell {0}': '单元 {0}',
  'r{0} of processor {1}': '处理器 {1} 的 r{0}',
  'the counter of processor {0}': '处理器 {0} 的计数器',
  'The same steps up to this moment, and then each worker in turn to the end: {0}.':
    '到这一时刻为止的相同步骤，然后各工作者轮流直到结束：{0}。',
  'A plan has no twins: go back to a moment before the first one.': '计划不能有分身：请回到第一个分身之前的时刻。',
  '❚❚ Pause': '❚❚ 暂停',
  '{0} heat': '{0} 热度',
  'How often each line is executed, and by how many processors': '每行执行多少次，由多少个处理器执行',
  line: '行',
  'executed so far': '至此执行',
  'in the whole run': '整个运行中',
  'active so far': '至此活跃',
  'at most at once': '同时最多',
  'Executed so far: {0} of {1} times.': '至此执行：{1} 次中的 {0} 次。',
  'Active processors, counted each time: {0} of {1}, at most {2} at once.':
    '活跃处理器，每次计数：{1} 中的 {0}，同时最多 {2}。',
  'Steps {0} to {1}.': '第 {0} 步至第 {1} 步。',
  'Step {0}: {1} read a cell, {2} write one.': '第 {0} 步：{1} 个读单元，{2} 个写单元。',
  'after step {0} of {1}': '已过 {0} 步，共 {1} 步',
  'steps {0} to {1}': '第 {0} 到 {1} 步',
  processor: '处理器',
  counter: '计数器',
  instruction: '指令',
  reads: '读',
  writes: '写',
  'goes to': '转到',
  'from processor {0}': '从处理器 {0} 起',
  'earlier processors': '前面的处理器',
  'later processors': '后面的处理器',
  halted: '已停机',
  'no such cell': '没有这个单元',
  'halted in step {0}, {1}': '在第 {0} 步停机，{1}',
  'no such cell in step {0}, {1}': '在第 {0} 步没有这个单元，{1}',
  'its end': '结尾',
  'line {0}': '第 {0} 行',
  'Processors, and what each asks for in the next step': '各处理器，以及每个在下一步所请求的',
  'Its answer: a conflict in step {0} at {1}, between processors {2} and {3}.':
    '它的答案：第 {0} 步有冲突，位置是 {1}，在处理器 {2} 和 {3} 之间。',
  'Its answer: a conflict in line {0} at {1}, between processors {2} and {3}.':
    '它的答案：第 {0} 行有冲突，位置是 {1}，在处理器 {2} 和 {3} 之间。',
  'The page is out of memory.': '页面内存不足。',
  'Its answer: done after {0} step.{1}': '它的答案：{0} 步后完成。{1}',
  'Its answer: done after {0} steps.{1}': '它的答案：{0} 步后完成。{1}',
  'Its answer is more than {0} steps away, too far for this page: “pramx plain” goes on.':
    '它的答案在 {0} 步以外，对本页面太远：“pramx plain”可以继续。',
  'Its answer is more than {0} steps away, and is being made.': '它的答案在 {0} 步以外，正在生成。',
  '{0}, {1}, {2}, rule {3}. {4}': '{0}，{1}，{2}，规则 {3}。{4}',
  '{0} cell': '{0} 个单元',
  '{0} cells': '{0} 个单元',
  '{0} processor': '{0} 个处理器',
  '{0} processors': '{0} 个处理器',
  'The page shows up to {0} processors, and here are {1}: “pramx” takes them.':
    '本页面最多显示 {0} 个处理器，这里有 {1} 个：“pramx”可以处理。',
  'Line {0}: {1}': '第 {0} 行：{1}',
  'A text has at most {0} bytes.': '文本最多 {0} 字节。',
  ['The lines before “code” are: pardo 1, then rule common, rule priority or rule crew; and ' +
    'then, in any order, const NAME = VALUE, just one procs NAME < COUNT, shared NAME or ' +
    'shared NAME[COUNT] with “= values” or without, private NAME after procs.']:
    '“code”之前的各行是：pardo 1，然后 rule common、rule priority 或 rule crew；然后按任意次序，const NAME = VALUE，恰' +
    '好一个 procs NAME < COUNT，shared NAME 或 shared NAME[COUNT]，带或不带“= values”，procs 之后的 private ' +
    'NAME。',
  ['A line of code is NAME := VALUE, NAME[INDEX] := VALUE, if CONDITION, elsif CONDITION, ' +
    'else, end, while CONDITION, for NAME = FIRST to LAST, or the same with downto, assert ' +
    'CONDITION.']:
    '代码行是 NAME := VALUE、NAME[INDEX] := VALUE、if CONDITION、elsif CONDITION、else、end、while ' +
    'CONDITION、for NAME = FIRST to LAST 或同样用 downto、assert CONDITION。',
  'It is “^”: a power of two is 1 << h, exclusive or is xor.': '它是“^”：2 的幂写作 1 << h，异或写作 xor。',
  ['An array needs an index and a scalar has none; no value goes to a constant, to the own ' +
    'number or to a loop’s variable; loops go by what is the same for all processors.']:
    '数组需要下标，标量没有下标；不能给常量、自己的编号或循环变量赋值；循环所依据的必须对所有处理器都相同。',
  'Numbers go up to 4,294,967,295, processors to 65,536, places of an array to 1,048,576.':
    '数最大为 4,294,967,295，处理器最多 65,536 个，数组的位置最多 1,048,576 个。',
  'A private variable, a depth of loops and a depth of ifs each take one for each processor.':
    '每个私有变量、每层循环和每层 if 都给每个处理器占一个单元。',
  'Each if, while and for needs an end.': '每个 if、while 和 for 都需要一个 end。',
  ['Lines for which three registers are too few have hidden lines before them. These need ' +
    'private variables without a name: as many as the line with most hidden lines has.']:
    '三个寄存器不够用的行，前面有隐藏的行。这些行需要没有名字的私有变量：与隐藏行最多的那一行所需的一样多。',
  'Does what its loop goes by ever change? A processor that is not in an if changes nothing there.':
    '循环所依据的会改变吗？不在 if 中的处理器在那里什么都不改变。',
  'gone: line {0} has no such place': '已退出：第 {0} 行没有这个位置',
  'Processors in the line that is next': '下一行中的各处理器',
  'in this line': '在这一行',
  nobody: '无',
  'one is enough': '一个就够',
  ['Lose two of the three workers for good, each after a step of its own, and let the job ' +
    'come to its end.']:
    '让三个工作者中的两个永远失去，每个都在自己走过一步之后，并让任务走到结束。',
  'too late': '太晚了',
  ['Let a worker come too late to swap a word: it sleeps right before its swap, the others do ' +
    'its part, and it wakes.']:
    '让一个工作者来不及交换一个字：它在交换之前睡着，其他工作者做了它那一份，然后它醒来。',
  'asleep through two steps': '睡过两步',
  ['Let a worker sleep while the others finish two steps of the machine. Then wake it, and ' +
    'let it be the one that finishes a later step.']:
    '让一个工作者睡着，同时其他工作者完成机器的两步。然后叫醒它，并让它成为完成后面某一步的那一个。',
  'Solved, in {0} acts.': '已解出，用了 {0} 个动作。',
  'Not yet: no such thing happened.': '还不对：没有发生这样的事。',
  'moment {0} of {1}': '时刻 {0}，共 {1}',
  '{0} of {1}': '{0}/{1}',
  'loop {0} of P{1}': 'P{1} 的循环 {0}',
  'mask {0} of P{1}': 'P{1} 的掩码 {0}',
  'kept {0} of P{1}': 'P{1} 的保留值 {0}',
  '{0} of P{1}': 'P{1} 的 {0}',
  'To line {0}': '到第 {0} 行',
  'No stop at line {0}': '取消第 {0} 行的停止',
  'Stop at line {0}': '停在第 {0} 行',
  'one program, four processors': '一个程序，四个处理器',
  ['Four processors run the same program on common memory, line by line together. It sums ' +
    'eight values. Click “Step” some times: the arrow in the text shows where all are, those ' +
    'that are lit take part in the line, and arrows show who reads and who writes.']:
    '四个处理器在共享内存上运行同一个程序，一行一行地一起进行。它求八个值的和。点几次“前进”：文本中的箭头显示大家所在之处，亮着的参与这一行，各箭头显示谁读、谁写。',
  'reads before writes': '先读后写',
  ['In each line all reads come before all writes. So the result depends on nobody’s speed. A ' +
    'line is some steps of the machine: “the machine’s steps” shows them. Below, the plot has ' +
    'all of them; a click goes there. Under it stands what the run costs.']:
    '在每一行中，所有的读都先于所有的写。所以结果不依赖任何一个的速度。一行是机器的若干步：“机器的步”会显示它们。下面的图有全部的步；点击即可到那里。再下面是这次运行的代价。',
  'nobody has such a machine': '谁也没有这样的机器',
  ['Real threads stop, sleep and die at any moment. Here three workers do the work of the ' +
    'four processors, by atomic steps on common words: each step of the machine, and so each ' +
    'line. Click “Step all” some times: each walks through the tree, from leaf to leaf.']:
    '真实的线程随时会停止、睡眠和死去。这里三个工作者做四个处理器的工作，用的是对共享的字的原子步骤：做机器的每一步，从而做每一行。点几次“全体一步”：每个都在树中行走，从叶子到叶子。',
  'the tree': '树',
  ['A leaf is a processor. Each step of the machine has passes over all leaves; a node is ' +
    'coloured when all below it is done. Who comes to a node that is done goes elsewhere, and ' +
    'who finds the root done begins the next pass. Nobody waits.']:
    '一片叶子是一个处理器。机器的每一步对所有叶子有几遍；当一个结点之下的一切都完成时，它就着色。谁来到已完成的结点，就去别处；谁发现根已完成，就开始下一遍。谁也不等待。',
  'a worker is lost': '一个工作者失去了',
  ['Worker 2 is lost in the midst of processor 3’s part: the register is written, the counter ' +
    'is not, and the leaf P3 is not marked. Nobody is told. What will the others do? Click ' +
    '“Step all” some ten times, and read in the list of atomic steps what they do at that leaf.']:
    '工作者 2 在做处理器 3 那一份的中途失去了：寄存器已写，计数器还没有，叶子 P3 没有标记。没有谁得到通知。其他工作者会怎么做？点十来次“全体一步”，并在原子步骤的列表中读一读' +
    '它们在那片叶子上做了什么。',
  'the others do its part': '其他工作者做了它那一份',
  ['The others found its leaf not done, and did its part; what was written already stayed. ' +
    'The first step is finished, and “Next finished step” shows each further one. Go back with ' +
    'the slider and lose a worker elsewhere: try any moment at all.']:
    '其他工作者发现它的叶子没有完成，就做了它那一份；已经写下的保持不变。第一步完成了，“下一个完成的步”显示后面的每一步。用滑块往回走，在别处失去一个工作者：任何时刻都可以试。',
  'it slept, and is late': '它睡过，来晚了',
  ['A lost worker does nothing more. One that slept does: worker 2 wakes, as if no time had ' +
    'passed, and goes on with what it meant to do then. Step it six times and more: it finds ' +
    'its words written and its leaf raised already, changes nothing, and walks on.']:
    '失去的工作者不再做任何事。睡过的却会做：工作者 2 醒来，就像时间没有过去，继续做它当时要做的事。让它走六步以上：它发现它的字已经写好、它的叶子已经提高，什么都不改变，继续往前走。',
  'back, knowing nothing': '回来了，什么都不知道',
  ['Worker 2 comes back. All it has is one word: where it stood. Step it: it reads that, then ' +
    'the root, and works on at its leaf.']:
    '工作者 2 回来了。它所有的只是一个字：它原来在哪里。让它走步：它先读这个字，再读根，然后在它的叶子上继续工作。',
  'one of three goes on': '三个中的一个继续',
  ['Now two of three are lost. Click “To the end”: one worker is enough, and the answer is ' +
    'the plain machine’s. That holds for every program, each number of workers and any ' +
    'schedule: it is proved. Next: the exercises, and “Find a schedule”.']:
    '现在三个中失去了两个。点“直到结束”：一个工作者就够，而且答案就是普通机器的答案。这对每个程序、任何个数的工作者和任何调度都成立：这是已证明的。接下来：练习，以及“找一个调度”。',
  'All steps are finished.': '所有步都已完成。',
  'Step {0} is against the rule.': '第 {0} 步违反规则。',
  'Phase {1} (step {2}, {3}): {4} of {0} node are finished.':
    '阶段 {1}（第 {2} 步，{3}）：{0} 个结点中已完成 {4} 个。',
  'Phase {1} (step {2}, {3}): {4} of {0} nodes are finished.':
    '阶段 {1}（第 {2} 步，{3}）：{0} 个结点中已完成 {4} 个。',
  'The progress tree. {0}': '进度树。{0}',
  'to {0} of {1}': '到 {0}，共 {1}',
  lost: '失去',
  over: '结束',
  asleep: '睡着',
  awake: '醒着',
  Step: '一步',
  Wake: '叫醒',
  Sleep: '睡眠',
  Return: '返回',
  Lose: '失去',
  Twin: '分身',
  'If lost?': '若失去？',
  'What if it is lost here, and the others go on to the end?': '如果它在这里失去，而其他工作者继续到结束，会怎样？',
  'What if {1} is lost at moment {2}? The others make {0} atomic step more.':
    '如果 {1} 在时刻 {2} 失去，会怎样？其他工作者再走 {0} 个原子步骤。',
  'What if {1} is lost at moment {2}? The others make {0} atomic steps more.':
    '如果 {1} 在时刻 {2} 失去，会怎样？其他工作者再走 {0} 个原子步骤。',
  'Cells as a reader gets them': '读者所得到的各单元',
  'On the way. Any other click ends it here.': '正在进行。点击别处即可在此结束。',
  'Finished: {1} of {0} step.': '已完成：{0} 步中的 {1} 步。',
  'Finished: {1} of {0} steps.': '已完成：{0} 步中的 {1} 步。',
  'a character here is neither printable ASCII nor a tab': '这里的字符既不是可打印的 ASCII，也不是制表符',
  'a line of the header is wrong, missing or repeated': '头部有一行错误、缺少或重复',
  'a number must stand here, in digits alone': '这里必须是一个数，只用数字',
  'a number is outside its limits': '有一个数超出其界限',
  'no instruction stands here': '这里没有指令',
  'the instruction has too few operands, or too many': '指令的操作数太少或太多',
  'no register stands here (r0 to r3), nor what may stand for one': '这里没有寄存器（r0 到 r3），也没有可以代替它的',
  'an earlier line defines this label': '前面已有一行定义了这个标号',
  'no line defines the label of this jump': '没有哪一行定义这个跳转的标号',
  'no instruction follows the line code': 'code 行之后没有指令',
  'a program has at most 4,096 instructions': '程序最多 4,096 条指令',
  'a character here has no meaning': '这里的字符没有意义',
  'something is missing here, left over, or in the wrong place': '这里缺少什么、多了什么，或者放错了地方',
  'a name here is not known': '这里的名字是未知的',
  'the name that is declared here is known already': '这里声明的名字已经有了',
  'a name here stands for something that has no place here': '这里的名字所代表的东西不能放在这里',
  'a number is outside its limits, or something is divided by 0': '有一个数超出其界限，或者除以 0',
  'the array gets too many values, or too few without ...': '数组得到的值太多，或者没有 ... 而值太少',
  'a program has at most 1,048,576 cells': '程序最多 1,048,576 个单元',
  'this else or end belongs to nothing': '这个 else 或 end 没有归属',
  'more than 32 brackets are open': '打开的括号超过 32 个',
  'the text ends here, and a block is not closed': '文本到此结束，而有一个块没有关闭',
  'no line of code follows the line code': 'code 行之后没有代码行',
  'three registers are too few for an expression of a loop: use a scalar': '三个寄存器不够用于循环的表达式：请使用标量',
  'the program is still here after 1,048,576 steps, or 2^30 in all':
    '程序在 1,048,576 步之后（或总共 2^30 步之后）仍在这里',
  'with its hidden lines a program has at most 1,048,576 cells': '连同隐藏的行，程序最多 1,048,576 个单元',
  'At {0}: {1}.': '位置 {0}：{1}。',
  'Its first {0} rows are shown.': '显示其前 {0} 行。',
  '“:=” assigns, “=” compares.': '“:=”是赋值，“=”是比较。',
  '{0}: {1}.': '{0}：{1}。',
  'the text is too long': '文本太长',
};
