// What is told on the page of lessons. The auditor's answers are those of docs/AUDIT.md, word for word; a test holds them to it.

/** Box 14 as a run: controller 0 takes the bus with its reserve, ends a transfer and stalls; controller 1 asks and waits. */
const TAKES = 'pins 0 0 0 1        # address 71h\npart PCA9641\n\n# Controller 0 takes the bus.\ncommand 0 03        # RT\nwrite 0 00\nstop 0\ncommand 0 01        # CONTR\nwrite 0 05          # BUS_CONNECT and LOCK_REQ\nstop 0\n';
const STALLS = '\n# It ends a transfer, START and STOP, and does nothing more.\nlines 1 0 1\nlines 1 1 1\n';
const ASKS = '\n# Controller 1 wants 50 ticks, asks for the bus, and waits.\ncommand 1 03        # RT\nwrite 1 50ms\nstop 1\ncommand 1 01        # CONTR\nwrite 1 05          # BUS_CONNECT and LOCK_REQ\nstop 1\n';
const WAITS = 'tick 300\n';

/** @typedef {{title: string, text: string[], script: string, reserve: number}} Step */

/** @type {Step[]} */
const STEPS = [
  {
    title: 'A box stays empty',
    text: [
      'An order sheet says for each controller how long it may hold the downstream bus: the box "Downstream reserve, ms". On this bundle\'s sheets it was left empty, and nobody noticed.',
      'An empty box is no value. On the page "Release" it is red, and the bundle is not released.',
    ],
    script: TAKES + STALLS + ASKS + WAITS,
    reserve: 0,
  },
  {
    title: 'It is packed as 00h',
    text: [
      'A program had to put some byte in the register RT, and took 00h. To the arbiter that is no time of 0 ms: RT 00h means "hold the bus until you let go".',
      'Controller 0 writes RT and asks for the bus. At its STOP it is granted it, without limit.',
    ],
    script: TAKES,
    reserve: 0,
  },
  {
    title: 'Controller 0 stalls',
    text: [
      'It ends a transfer on the downstream bus, and then does nothing more. The bus is idle, and still its own: neither a tick nor the idle bus takes it away, since the idle timer is off.',
    ],
    script: TAKES + STALLS,
    reserve: 0,
  },
  {
    title: 'Controller 1 waits',
    text: [
      'Controller 1 asks for the bus. Its port is at rest and the bus is idle, but the turn is not its own. It waits 300 ms here, and would wait for ever.',
      'It gets the bus by a reset alone, and a reset takes the settings of both.',
    ],
    script: TAKES + STALLS + ASKS + WAITS,
    reserve: 0,
  },
  {
    title: 'The box is filled in',
    text: [
      'The box says 50. One byte is another, and the waiting ends: at the 50th tick the reserve has run out, and controller 1 owns the bus in that very event. Move the slider to 0 and back to see both.',
      'That is proved of every run, not of this one alone: by its sheets a controller waits at most the other\'s reserve and one tick.',
    ],
    script: TAKES + STALLS + ASKS + WAITS,
    reserve: 50,
  },
];

/** @typedef {{question: string, answer: string, more: string, statements: string[], shows: string, script: string}} Question */

/** @type {Question[]} */
const QUESTIONS = [
  {
    question: 'Can both controllers ever be connected at once?',
    answer: 'No.',
    more: 'After every run at most one controller is connected to the downstream bus, and it holds the grant.',
    statements: ['OneConnected', 'ConnectionExact'],
    shows: 'Both ask with BUS_CONNECT in one instant. One wins and is connected; the other is connected only when the first has lost the bus.',
    script: 'pins 0 0 0 1\npart PCA9641\ncommand 0 03\nwrite 0 20ms\nstop 0\ncommand 0 01\ncommand 1 01\npair 05 05          # both ask and want to be connected, at once\nstop 0\nstop 1\ntick 30\n',
  },
  {
    question: 'Can a reserved transfer be cut short?',
    answer: 'By a reset, yes: the partner can send one.',
    more: "Nothing else of the partner's can, and the idle timer cannot.",
    statements: ['ReserveLasts', 'TransferLasts'],
    shows: 'Controller 0 has the bus for 200 ms. Controller 1 asks with priority, which changes nothing. Its soft reset at tick 60 ends the grant.',
    script: 'pins 0 0 0 1\npart PCA9641\ncommand 0 03\nwrite 0 200ms\nstop 0\ncommand 0 01\nwrite 0 05\nstop 0\ntick 20\ncommand 1 01\nwrite 1 85          # it asks with priority\nstop 1\ntick 40\ngeneral 1 06        # the soft reset\ntick 20\n',
  },
  {
    question: 'When does the waiting one get its turn?',
    answer: "By its sheets, whichever of the two it is and at every handover, after at most the other's reserve of 1 to 255 and one tick",
    more: 'if the bus is idle then and its port at rest',
    statements: ['SheetsGuarantee', 'WaitTells', 'BoundedExactly'],
    shows: 'Both ask all the time, with reserves of 50 and 20 ms. Each loses the bus when its reserve has run out, and asks again.',
    script: 'pins 0 0 0 1\npart PCA9641\ncommand 0 03\nwrite 0 50ms\nstop 0\ncommand 1 03\nwrite 1 20ms\nstop 1\ncommand 0 01\nwrite 0 05\nstop 0\ncommand 1 01\nwrite 1 05\nstop 1\ntick 52\ncommand 0 01\nwrite 0 05          # it asks again\nstop 0\ntick 22\ncommand 1 01\nwrite 1 05\nstop 1\ntick 60\n',
  },
];
