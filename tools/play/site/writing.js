// ---- how a script is written: for whoever begins, and for whoever knows Haskell ----

const HOW_TO_WRITE = [
  'A script is a list of definitions, and each ends with `;`. It begins at `main`. A comment goes from `--` to the end of its line.',
  'A definition names each parameter with its type, then the type of its result. One of type `IO` has a block, every other an expression.',
  'A block stands in braces. Its statements end with `;`, and line ends mean nothing: `x <- action`, `let x = value`, or an action. The last one is the result.',
  'An argument that is a call needs parentheses. Evaluation is strict, and `Int` has 64 bits.',
  'There is no `import`, `where`, `data`, `class` or lambda, and no function as a value: the forms below take blocks in their place.',
];
// What a module of Haskell has, and how a script has it.
const IN_HASKELL = [
  ['main = do\n  m <- newMVar 0\n  print 1', 'main :: IO () = { m <- newMVar 0; putStrLn (show 1) };'],
  ['add :: MVar Int -> Int -> IO ()\nadd m n = do ..', 'add (m :: MVar Int) (n :: Int) :: IO () = { putMVar m n };'],
  ['twice :: Int -> Int\ntwice n = n + n', 'twice (n :: Int) :: Int = n + n;'],
  ['forM_ [1 .. n] ..', 'loop (n :: Int) :: IO () = { if n == 0 then { return () } else { putStrLn (show n); loop (n - 1) } };'],
  ['putStrLn $ show n', 'putStrLn (show n)'],
  ['newEmptyMVar :: IO (MVar Int)', 'newEmptyMVar @Int'],
  ['forkIO $ do ..', 'forkIO { putMVar m 1 }'],
  ['modifyMVar_ m (\\x -> return (x + 1))', 'modifyMVar_ m x { return (x + 1) }'],
  ['when c ..', 'if n == 1 then { putStrLn "one" } else { return () }'],
  ['case r of\n  Nothing -> ..\n  Just x -> ..', 'case r of { Nothing -> { return () }; Just x -> { putStrLn (show x) } }'],
  ['throwIO (ErrorCall "no")', 'throwIO @() (ErrorCall "no")'],
  ['catch a (\\e -> ..)', 'catch { takeMVar m } e { return 0 }'],
  ['bracket a (\\x -> ..) (\\x -> ..)', 'bracket { takeMVar m } x { putMVar m x } { putStrLn (show x) }'],
  ['mask $ \\restore -> ..', 'mask r { restore r { takeMVar m } }'],
  ['timeout 1000 ..', 'timeout 1000 { takeMVar m }'],
  ['withAsync a (\\h -> ..)', 'withAsync { takeMVar m } h { wait h }'],
];

function table(head, rows) {
  return make('table', {}, make('thead', {}, make('tr', {}, ...head.map(it => make('th', { scope: 'col' }, it)))),
    make('tbody', {}, ...rows.map(cells => make('tr', {}, ...cells.map(it => make('td', {}, ...[it].flat()))))));
}

function explainWriting() {
  const take = button('Take this script', () => {
    $('writing').close();
    loadFresh(data.writing, 'first');
    text.focus({ preventScroll: true });
  });
  const claims = data.commands.includes('claims') ? [`A line that begins with \`--!\` is a claim, and Outcomes says whether it holds: ${FORMS_OF_CLAIMS}.`] : [];
  $('how').append(...HOW_TO_WRITE.concat(claims).map(it => make('p', {}, ...sentence(it))), make('pre', { className: 'text', tabIndex: 0, role: 'region', 'aria-label': 'A script' }, data.writing),
    make('div', { className: 'bar' }, take), make('h3', {}, 'Where you know Haskell'),
    table(['Haskell', 'script'], IN_HASKELL.map(pair => pair.map(it => make('pre', {}, it)))),
    make('h3', {}, 'All forms'), make('p', {}, ...sentence('`a` and `b` are arguments, `A`, `B` and `C` blocks, `m` a cell, `t` a type, `x` and `e` names for the block behind them, `r` a name for `restore`.')),
    ...data.forms.map(({ head, rows }) => table(head, rows.map(row => row.map(sentence)))));
}

const showWriting = () => $('writing').showModal();
