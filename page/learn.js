// The lessons: box 14 in five steps with a live picture, the auditor's questions beside runs that show the answers, the samples.

/** @type {{step: number, reserve: number}} */
const learn = { step: 0, reserve: 0 };

const sayStep = rested(500, () => say(byId('learn-told').textContent));

/** @param {number} step */
function showStep(step) {
  learn.step = step;
  learn.reserve = STEPS[step].reserve;
  const { title, text } = STEPS[step];
  byId('step-head').textContent = `${step + 1}. ${title}`;
  put(byId('step-text'), ...text.map((words) => make('p', {}, words)));
  byId('step-less').disabled = step === 0;
  byId('step-more').disabled = step === STEPS.length - 1;
  [...byId('steps').querySelectorAll('button')].forEach((one, place) => {
    if (place === step) one.setAttribute('aria-current', 'step');
    else one.removeAttribute('aria-current');
  });
  drawStep();
}

/** Draws the run of the step with the reserve that the slider says. */
function drawStep() {
  const { step, reserve } = learn;
  const slider = byId('learn-range');
  slider.value = String(reserve);
  slider.setAttribute('aria-valuetext', reserveWords(reserve));
  byId('learn-said').textContent = reserveWords(reserve);
  const answer = ask('compose', stepScript());
  if (!answer.ok) return put(byId('learn-told'), textOf(answer));
  byId('learn-told').textContent = drawTrace(byId('learn-picture'), answer.fields[0], `step ${step + 1}`).replaceAll('\n', '; ');
}

/** @returns {string} */
function stepScript() {
  return withReserve(STEPS[learn.step].script, learn.reserve);
}

/**
 * A question with its answer, and beside it a run that shows it.
 * @param {Question} one
 * @param {number} number
 * @returns {HTMLElement}
 */
function showQuestion(one, number) {
  const picture = makePicture(`Picture: ${one.shows}`);
  const answer = ask('compose', one.script);
  const told = answer.ok ? drawTrace(picture, answer.fields[0], `question ${number + 1}`) : textOf(answer);
  const statements = one.statements.flatMap((name, place) => [place ? ', ' : '', make('code', {}, name)]);
  return make(
    'section',
    { class: 'question', 'aria-labelledby': `question-${number}` },
    make('h3', { id: `question-${number}` }, `${number + 1}. ${one.question}`),
    make('p', {}, make('b', {}, one.answer), one.answer.endsWith('.') ? ' ' : ', ', one.more, one.more.endsWith('.') ? '' : '.'),
    make('p', { class: 'hint' }, 'Proved: ', ...statements),
    make('p', {}, one.shows),
    picture,
    make('p', {}, told.replaceAll('\n', '; ')),
    button('Open this run on the bench', () => toBench(one.script, `question-${number + 1}`)),
  );
}

/** Every sample, with a button that opens it where it belongs. */
function showSamples() {
  put(byId('samples'), ...samples.all.map((sample) => make('li', {}, button(sample.name, () => openSample(sample)), ` ${sample.says}`)));
}

function startLearn() {
  const step = (/** @type {Step} */ { title }, /** @type {number} */ place) => make('li', {}, button(title, () => showStep(place)));
  put(byId('steps'), ...STEPS.map(step));
  byId('step-less').addEventListener('click', () => showStep(learn.step - 1));
  byId('step-more').addEventListener('click', () => showStep(learn.step + 1));
  byId('step-bench').addEventListener('click', () => toBench(stepScript(), `box14-step${learn.step + 1}`));
  byId('learn-range').addEventListener('input', () => {
    learn.reserve = Number(byId('learn-range').value);
    drawStep();
    sayStep();
  });
  whenShown.learn = () => {
    if (byId('questions').childElementCount) return;
    showStep(0);
    put(byId('questions'), ...QUESTIONS.map(showQuestion));
  };
}
