// ---- options ----

const OPTIONS = ['clock', 'fuel', 'states', 'memory'];

// A number that is none, or beyond its bounds, is made one within them, and shown so.
function option(name) {
  const field = $(name);
  if (name === 'clock') return field.value;
  const asked = Math.round(Number(field.value)), least = Number(field.min), most = Number(field.max);
  const taken = field.value.trim() === '' || Number.isNaN(asked) ? Number(field.defaultValue) : Math.min(most, Math.max(least, asked));
  if (String(taken) !== field.value) field.value = String(taken);
  return taken;
}
const ofRun = () => ['--clock', option('clock'), '--fuel', String(option('fuel'))];
const wordsOf = {
  check: () => ['check'],
  run: () => ['run', ...ofRun()],
  outcomes: () => ['outcomes', ...ofRun(), '--states', String(option('states'))],
  claims: () => ['claims', ...ofRun(), '--states', String(option('states'))],
};

function takeOptions(given) {
  for (const name of OPTIONS) {
    if (given[name] == null || (name === 'clock' && !['real', 'virtual'].includes(given[name]))) continue;
    $(name).value = String(given[name]);
    option(name);
  }
  const usual = OPTIONS.every(name => name === 'clock' ? option(name) === 'real' : $(name).value === $(name).defaultValue);
  if (!usual) $('options').open = true;
}
const optionsNow = () => Object.fromEntries(OPTIONS.map(name => [name, option(name)]));
