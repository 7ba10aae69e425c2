// The text of the program: its tokens, the head of each statement, and where each name is in scope.

const WORDS = new Set(('and array as async at by byte else false fault finish if int len main mut not or parts print proc ' +
  'read rescue skip split true var while').split(' '));
const TOKEN = /\/\/[^\n]*|[A-Za-z_][A-Za-z_0-9]*|[0-9]+|<=|>=|==|!=|[(){}[\],;:=+\-*/%<>]/g;

// The program as the page shows it: lines, tokens, and for each label where its head begins and ends in the text.
function readProgram(data) {
  const text = data.text;
  const lineStarts = [0];
  for (let at = text.indexOf('\n'); at >= 0; at = text.indexOf('\n', at + 1)) lineStarts.push(at + 1);
  const tokens = Array.from(text.matchAll(TOKEN), found => ({at: found.index, text: found[0]}));
  const labels = data.places.line.length;
  const heads = [{from: 0, to: 0, line: 0, block: false}];
  let token = 0;
  for (let i = 0; i < labels; i++) {
    const from = lineStarts[data.places.line[i] - 1] + data.places.column[i] - 1;
    while (token < tokens.length && tokens[token].at < from) token++;
    heads.push(headFrom(tokens, token, data.places.line[i]));
  }
  const program = {name: data.name, text, lineStarts, tokens, labels, heads, procedures: [], ranges: [], arrays: data.arrays,
    rescues: new Set()};
  readProcedures(program);
  return program;
}

// The head of the statement that begins with a token: up to its `;`, or up to the `{` of its block.
function headFrom(tokens, first, line) {
  let last = first;
  while (last < tokens.length && tokens[last].text !== ';' && tokens[last].text !== '{') last++;
  const block = last < tokens.length && tokens[last].text === '{';
  const end = tokens[Math.min(block ? last - 1 : last, tokens.length - 1)];
  return {from: tokens[first].at, to: end.at + end.text.length, line, block};
}

// Reads the procedures: their labels, the names of their scalars and sections, and the part of the text in which each name is
// in scope. Scalars and sections are declared in the order of their numbers. Also finds the labels of finishes with a rescue.
function readProcedures(program) {
  const tokens = program.tokens.filter(token => !token.text.startsWith('//'));
  let names = null;
  let ranges = null;
  let blocks = [];
  let parameters = [];
  let opener = 0;    // where the last finish begins, and where the statement of the block that was closed last
  let closed = 0;
  const labelAt = new Map(program.heads.map((head, label) => [head.from, label]));
  const declare = (list, name, from) => {
    const range = {from, to: program.text.length};
    names[list].push(name);
    ranges[list].push(range);
    return range;
  };
  for (let i = 0; i < tokens.length; i++) {
    const {text, at} = tokens[i];
    if (text === 'proc' || text === 'main') {
      names = {name: text === 'proc' ? tokens[i + 1].text : text, first: labelFrom(program, at), scalars: [], sections: []};
      ranges = {scalars: [], sections: []};
      program.procedures.push(names);
      program.ranges.push(ranges);
      blocks = [];
      parameters = [];
      if (text === 'proc') i = readParameters(tokens, i, parameters, declare);
    } else if (text === 'array') {
      declare('sections', tokens[i + 1].text, at);
    } else if (text === 'var') {
      blocks[blocks.length - 1].names.push(declare('scalars', tokens[i + 1].text, at));
    } else if (text === 'split' || text === 'parts') {
      while (i < tokens.length && tokens[i].text !== '{') i++;
      const first = declare('sections', tokens[i - 3].text, at);
      blocks.push({names: [first, declare(text === 'split' ? 'sections' : 'scalars', tokens[i - 1].text, at)], opener: at});
    } else if (text === 'finish') {
      opener = at;
    } else if (text === 'rescue') {
      program.rescues.add(labelAt.get(closed));
      blocks.push({names: [declare('scalars', tokens[++i].text, at)], opener: at});
      i++;
    } else if (text === '{') {
      blocks.push({names: parameters, opener});
      parameters = [];
    } else if (text === '}') {
      const block = blocks.pop() || {names: [], opener: 0};
      for (const range of block.names) range.to = at;
      closed = block.opener;
    }
  }
  program.procedures.forEach((procedure, i) => {
    const next = program.procedures[i + 1];
    procedure.last = next ? next.first - 1 : program.labels;
  });
}

// Declares the parameters of a procedure, and returns the position of the token after them.
function readParameters(tokens, at, parameters, declare) {
  let i = at;
  while (i < tokens.length && tokens[i].text !== ')') {
    if (tokens[i].text === ':') {
      const word = tokens[i - 2].text;
      const list = word === 'mut' || word === 'read' ? 'sections' : 'scalars';
      parameters.push(declare(list, tokens[i - 1].text, tokens[i].at));
    }
    i++;
  }
  return i;
}

// The label of the first statement from a position in the text on.
function labelFrom(program, at) {
  let label = 1;
  while (label <= program.labels && program.heads[label].from < at) label++;
  return label;
}

// The procedure that has a label.
function procedureOf(program, label) {
  const all = program.procedures;
  for (let i = 0; i < all.length; i++) if (label >= all[i].first && label <= all[i].last) return i;
  return all.length - 1;
}

// The head of a statement on one line, such as `while i < len(s) { .. }`.
function statement(program, label) {
  const head = program.heads[label];
  if (!head) return '';
  const text = program.text.slice(head.from, head.to).replace(/\/\/[^\n]*/g, ' ').replace(/\s+/g, ' ');
  return head.block ? text + ' { .. }' : text;
}

// The procedure that a statement calls, or -1.
function calleeOf(program, label) {
  const found = /^([A-Za-z_][A-Za-z_0-9]*)\s*\(/.exec(statement(program, label));
  return found ? program.procedures.findIndex(procedure => procedure.name === found[1]) : -1;
}
