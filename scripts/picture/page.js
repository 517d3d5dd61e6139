// Draws a procedure when it is opened, and its grids when they come into sight. All that is drawn is
// in JSON values: one of the page, and one of each procedure.
"use strict";
(function () {
  const page = JSON.parse(document.getElementById("data").textContent);
  const REGISTERS = ["eax", "ecx", "edx", "ebx", "esi", "edi"];
  const UNIT = { size: "bytes", speed: "units of time" };
  const PLACES = 14;
  const ON_PAPER = 9, A_PAGE = 40; // columns of variables, and rows, that a page of paper has room for
  const marks = {}, known = [], shownState = [];

  // The value of a procedure, which is read when it is asked for.
  function procedureOf(number) {
    if (!known[number]) {
      known[number] = JSON.parse(document.getElementById(`data-${number}`).textContent);
      shownState[number] = isNamed(known[number]) ? 0 : known[number].states.length - 1;
    }
    return known[number];
  }

  // Whether states are certificates, and not rounds.
  function isNamed(p) {
    return Boolean(p.states[0].name);
  }

  // The state that the shown one is held against: the one before, or of certificates the first or
  // the second one.
  function besides(p) {
    const state = shownState[p.number];
    if (!isNamed(p)) return state - 1;
    return state > 0 ? 0 : p.states.length > 1 ? 1 : -1;
  }

  function numberOf(section) {
    return Number(section.dataset.number);
  }

  // Paths, moves and extras of a block in a state: those of the last state in which they changed.
  function drawnIn(p, state, block) {
    for (let at = state; at >= 0; at--) if (p.states[at].blocks[block]) return p.states[at].blocks[block];
    return null;
  }

  function escaped(text) {
    return String(text).replace(/[&<>"]/g, (c) => ({ "&": "&amp;", "<": "&lt;", ">": "&gt;", '"': "&quot;" })[c]);
  }

  function placeName(place) {
    if (place < 6) return REGISTERS[place];
    if (place === 6) return "memory";
    if (place === 7) return "constant";
    return REGISTERS[place - 8] + " and memory";
  }

  function placeText(place) {
    if (place < 6) return REGISTERS[place];
    if (place === 6) return "mem";
    if (place === 7) return "con";
    return REGISTERS[place - 8] + "<b>m</b>";
  }

  function cost(number) {
    return "+" + number;
  }

  // ---- curves

  // Other allocators, and of what kind their lines are.
  const LEVELS = { "linear scan": "scan", "with holes": "holes", colouring: "colouring" };

  // How far apart the numbers of an axis are.
  function steps(most) {
    const size = Math.pow(10, Math.floor(Math.log10(Math.max(most / 5, 1))));
    return [1, 2, 5, 10].map((n) => n * size).find((n) => n * 5 >= most);
  }

  // Where the numbers of a curve lie, in a picture that leaves room for labels. Costs of round 0 may
  // lie above it, where they are far above all others.
  function frameOf(rounds, ends, room) {
    const first = rounds[0][0], others = rounds.slice(1).map((r) => r[0]);
    const rest = Math.max(1, ...others, ...ends.map((it) => it.value));
    const most = first > 1.5 * rest ? 1.2 * rest : Math.max(first, rest);
    const step = steps(most), highest = Math.ceil(most / step) * step;
    const longest = Math.max(...ends.map((it) => `${it.name} ${it.value}`.length));
    const beside = 28 + 7.3 * longest;
    const wide = Math.max(300, Math.min(330 + beside, room)), high = 266;
    const left = 52, right = wide - beside, top = 30, bottom = high - 38, last = rounds.length - 1;
    const x = (k) => left + (last ? ((right - left) * k) / last : 0);
    const y = (c) => bottom - ((bottom - top) * c) / highest;
    return { wide, high, left, right, top, bottom, last, step, highest, x, y };
  }

  function axes(f) {
    let out = "";
    for (let c = 0; c <= f.highest; c += f.step) {
      out += `<line class="tick" x1="${f.left}" x2="${f.right}" y1="${f.y(c)}" y2="${f.y(c)}"/>`;
      out += `<text x="${f.left - 6}" y="${f.y(c) + 4}" text-anchor="end">${c}</text>`;
    }
    const every = Math.max(1, Math.ceil(((f.last + 1) * 26) / (f.right - f.left)));
    for (let k = 0; k <= f.last; k += every) {
      out += `<text x="${f.x(k)}" y="${f.bottom + 16}" text-anchor="middle">${k}</text>`;
    }
    out += `<path class="axis" d="M${f.left} ${f.top}V${f.bottom}H${f.right}"/>`;
    return out + `<text x="${(f.left + f.right) / 2}" y="${f.high - 5}" text-anchor="middle">rounds</text>`;
  }

  // The line of the costs or of the bounds, with a dot for each round. Where the first one is above
  // the picture the line begins at the top.
  function steadyLine(f, rounds, name, i) {
    const points = rounds.map((r, k) => [f.x(k), f.y(r[i])]);
    const isAbove = rounds[0][i] > f.highest;
    if (isAbove) points[0] = [f.left, f.top - 9];
    let out = `<polyline class="${name}" points="${points.join(" ")}"/>`;
    if (isAbove) out += `<text class="${name}-name" x="${f.left + 3}" y="${f.top - 13}">\u2191 ${rounds[0][i]} in round 0</text>`;
    rounds.forEach((r, k) => {
      const [x, y] = points[k], title = `<title>round ${k}: ${name} ${r[i]}</title>`;
      if (isAbove && k === 0) return;
      out += i
        ? `<rect class="bound-dot" x="${x - 3}" y="${y - 3}" width="6" height="6">${title}</rect>`
        : `<circle class="cost-dot" cx="${x}" cy="${y}" r="3.5">${title}</circle>`;
    });
    return out;
  }

  // What stands at the ends of lines, one below the other, each led to from its line.
  function labels(f, ends) {
    const heights = [];
    for (const it of ends) heights.push(Math.max(f.y(it.value), heights.length ? heights.at(-1) + 15 : f.top));
    for (let i = ends.length - 1, most = f.bottom; i >= 0; i--) {
      most = (heights[i] = Math.min(heights[i], most)) - 15;
    }
    return ends.map(({ name, value, kind }, i) => {
      const isLevel = name in LEVELS, from = isLevel ? f.left : f.x(f.last), to = f.right + 18;
      const level = isLevel ? ` data-level="${name}" data-cost="${value}"` : "";
      const line = `<path class="lead ${kind}"${level} d="M${from} ${f.y(value)}H${f.right}L${to} ${heights[i]}h4"/>`;
      return `${line}<text class="${kind}-name" x="${to + 7}" y="${heights[i] + 4}">${name} ${value}</text>`;
    }).join("");
  }

  function curve(word, p, room) {
    const rounds = p.rounds[word], others = Object.entries(p.others[word] || {});
    const ends = others.filter((it) => it[1] !== null).map(([name, value]) => ({ name, value, kind: LEVELS[name] }));
    ["cost", "bound"].forEach((name, i) => ends.push({ name, value: rounds.at(-1)[i], kind: name }));
    const f = frameOf(rounds, ends.sort((a, b) => b.value - a.value), room);
    const lines = labels(f, ends) + steadyLine(f, rounds, "cost", 0) + steadyLine(f, rounds, "bound", 1);
    const note = word === page.cost
      ? "the allocation that is shown below"
      : `another allocation, which <code>--cost ${word}</code> finds`;
    const missing = others.filter((it) => it[1] === null)
      .map((it) => ` There is no line ${it[0]}: it found no places that this code admits.`).join("");
    return `<figure data-curve="${word}"><svg viewBox="0 0 ${f.wide} ${f.high}" width="${f.wide}" role="img" aria-label="Cost and bound by ${word}, round by round">${axes(f)}${lines}</svg>` +
      `<figcaption>By ${word}, in ${UNIT[word]}: ${note}.${missing}</figcaption></figure>`;
  }

  // Draws the curves of a procedure for the room that there is.
  function drawCurves(section) {
    const p = procedureOf(numberOf(section)), box = section.querySelector(".curves");
    const words = [page.cost, ...Object.keys(p.rounds).filter((w) => w !== page.cost)];
    if (box && box.clientWidth) box.innerHTML = words.map((w) => curve(w, p, box.clientWidth)).join("");
  }

  function levelWords(p) {
    return p.others[page.cost]
      ? `<p class="faint">Level lines are what allocators of the literature come to here, by the same weights: <em>linear scan</em>, the same <em>with holes</em>, and graph <em>colouring</em>. Each was tried by three measures of whom to send to memory, the cheapest counts, and nothing proves them (<a href="#levels">more</a>).</p>`
      : `<p class="faint">What other allocators come to was not worked out here, since the module is too large for that.</p>`;
  }

  // The name of a table, for those who hear it.
  function caption(words) {
    return `<caption class="heard">${escaped(words)}</caption>`;
  }

  function roundsTable(p) {
    const words = Object.keys(p.rounds), rounds = p.rounds;
    const longest = Math.max(...words.map((w) => rounds[w].length));
    let out = `<details><summary>Cost and bound as numbers</summary><div class="wide"><table class="plain">${caption("Cost and bound of " + p.name + ", round by round")}<thead><tr><th scope="col" class="number">round</th>`;
    for (const w of words) out += `<th scope="col" class="number">cost by ${w}</th><th scope="col" class="number">bound</th>`;
    out += "</tr></thead><tbody>";
    for (let k = 0; k < longest; k++) {
      out += `<tr><td class="number">${k}</td>`;
      for (const w of words) {
        const r = rounds[w][k] || ["", ""];
        out += `<td class="number">${r[0]}</td><td class="number">${r[1]}</td>`;
      }
      out += "</tr>";
    }
    for (const name of Object.keys(p.others[page.cost] || {})) {
      out += `<tr><td>${name}</td>`;
      for (const w of words) out += `<td class="number">${p.others[w][name] ?? "none"}</td><td></td>`;
      out += "</tr>";
    }
    return out + "</tbody></table></div></details>";
  }

  // ---- blocks and loops

  function flow(p) {
    const row = 34, boxWidth = 118, indent = 16, leftRoom = 70, rightRoom = 90;
    const deepest = Math.max(...p.blocks.map((b) => b.depth));
    const boxX = (b) => leftRoom + b.depth * indent;
    const rightX = leftRoom + deepest * indent + boxWidth;
    const wide = rightX + rightRoom, high = p.blocks.length * row + 12;
    const mid = (n) => n * row + 20;
    let out = "";
    const lanes = { way: [], back: [] };
    // the first lane that is free from one block to the other
    const lane = (kind, from, to) => {
      const low = Math.min(from, to), top = Math.max(from, to), taken = lanes[kind];
      let n = 0;
      while ((taken[n] || []).some(([a, b]) => low < b && a < top)) n++;
      (taken[n] = taken[n] || []).push([low, top]);
      return Math.min(n, 7);
    };
    p.blocks.forEach((b, from) => {
      for (const to of b.to) {
        const target = p.blocks[to];
        if (to <= from) {
          const bend = rightX + 16 + lane("back", from, to) * 9;
          const x1 = boxX(b) + boxWidth, x2 = boxX(target) + boxWidth;
          const down = from === to ? 7 : 4;
          out += `<path class="back" d="M${x1} ${mid(from) + down}H${bend}V${mid(to) - down}H${x2 + 7}"/>`;
          out += `<path class="back-tip" d="M${x2} ${mid(to) - down}l8 -4.5v9z"/>`;
        } else if (to === from + 1) {
          const x = Math.max(boxX(b), boxX(target)) + 24;
          out += `<path class="way" d="M${x} ${mid(from) + 11}V${mid(to) - 15}"/>`;
          out += `<path class="way-tip" d="M${x} ${mid(to) - 11}l-4 -6h8z"/>`;
        } else {
          const bend = leftRoom - 14 - lane("way", from, to) * 7;
          out += `<path class="way" d="M${boxX(b)} ${mid(from) + 4}H${bend}V${mid(to) - 4}H${boxX(target) - 6}"/>`;
          out += `<path class="way-tip" d="M${boxX(target)} ${mid(to) - 4}l-7 -4v8z"/>`;
        }
      }
      out += `<a href="#p${p.number}b${from}"><rect class="box" x="${boxX(b)}" y="${mid(from) - 11}" width="${boxWidth}" height="22" rx="3"/>`;
      out += `<text x="${boxX(b) + 8}" y="${mid(from) + 4}">block ${from}</text></a>`;
    });
    return `<figure><svg viewBox="0 0 ${wide} ${high}" width="${wide}" role="img" aria-label="Blocks and where they lead">${out}</svg>` +
      `<figcaption>Blocks in the order of the code, further right where more loops are around them. Thick blue lines lead back: they close loops.</figcaption></figure>`;
  }

  // ---- grids

  function variables(p, block) {
    const order = { pa: 0, pl: 1, co: 2 };
    const seen = [...new Set(block.strands.map((s) => s[0]))];
    return seen.sort((a, b) => order[p.kinds[a]] - order[p.kinds[b]] || a - b);
  }

  function machine(lines) {
    return (lines || []).map(([at, text]) => `<span title="at ${at}">${escaped(text)}</span>`).join("");
  }

  // What is at each layer of a block: the places by column, in their order, moves and extras.
  function layers(block, columns, drawn, kinds) {
    const column = new Map(columns.map((v, at) => [v, at]));
    const rows = Array.from({ length: 2 * block.code.length + 2 }, () => new Map());
    const moves = new Map(), extras = new Map(), sums = new Map(), live = rows.map(() => 0);
    const strands = block.strands.map((s, i) => [column.get(s[0]), s[1], drawn.paths[i], s[0]]);
    for (const [, first, path, v] of strands) {
      if (kinds[v] !== "co") for (let i = 0; i < path.length; i++) live[first + i]++;
    }
    for (const [at, first, path] of strands.filter((s) => s[0] !== undefined).sort((x, y) => x[0] - y[0])) {
      [...path].forEach((digit, i) => rows[first + i].set(at, parseInt(digit, 16)));
    }
    for (const move of drawn.moves) {
      if (!moves.has(move[0])) moves.set(move[0], new Map());
      moves.get(move[0]).set(column.get(move[1]), move);
      sums.set(move[0], (sums.get(move[0]) || 0) + move[5]);
    }
    for (const extra of drawn.extras) extras.set(extra[0] + " " + column.get(extra[1]), extra);
    return { columns, rows, moves, extras, sums, live };
  }

  // A row of cells: those that are drawn, by column, and one for each stretch between them.
  function row(drawn, count) {
    let out = "", next = 0;
    const blank = (to) => (to > next ? `<td${to > next + 1 ? ` colspan="${to - next}"` : ""}></td>` : "");
    for (const [column, cell] of drawn) {
      out += blank(column) + cell;
      next = column + 1;
    }
    return out + blank(count);
  }

  function cells(p, at, layer, before) {
    const drawn = [];
    for (const [column, place] of at.rows[layer]) {
      const v = at.columns[column], extra = at.extras.get(layer + " " + column);
      let words = `${p.names[v]} at layer ${layer}: ${placeName(place)}` +
        (extra ? `; ${page.events[extra[2]]} (event ${extra[2]}): ${cost(extra[3])}` : "");
      const old = before ? before.rows[layer].get(column) : place, isNew = old !== place, why = at.wrong.get(layer + " " + column);
      const kind = `p${place.toString(16)}${place > 7 ? " both" : ""}${isNew ? " changed" : ""}${why ? " wrong" : ""}`;
      let mark = extra ? `<span class="extra" data-e="${extra[2]}">${cost(extra[3])}</span>` : "";
      if (isNew && before.name) mark += `<span class="was">${placeText(old)}</span>`;
      if (isNew && before.name) words += `; in ${before.name}: ${placeName(old)}`;
      if (why) words += `; wrong: ${why}`;
      drawn.push([column, `<td data-v="${v}" data-l="${layer}" class="${kind}" tabindex="-1" title="${escaped(words)}">${placeText(place)}${mark}</td>`]);
    }
    return row(drawn, at.columns.length);
  }

  // Register pressure and prices of registers beside the layers of a block. What may be at memory in
  // one layer alone costs no register there, and is counted all the same.
  function heatOf(p, block, at) {
    const prices = new Map(block.caps.map(([layer, register, price]) => [layer * 6 + register, price]));
    const hasPrices = p.blocks.some((b) => b.caps.length);
    const most = Math.max(1, ...p.blocks.flatMap((b) => b.caps.map((it) => it[2])));
    const cell = (layer, register) => {
      const price = prices.get(layer * 6 + register) || 0;
      if (!price) return `<td class="heat"></td>`;
      const share = Math.round(15 + (85 * price) / most), told = inWeights(price);
      return `<td class="heat" data-cap="${layer} ${register} ${price}" style="--hot: ${share}%" title="${REGISTERS[register]} at layer ${layer}: price ${told}"></td>`;
    };
    const live = (layer) => {
      const count = at.live[layer];
      return `<td class="live${count > 6 ? " tight" : ""}" data-live="${count}">${count}</td>`;
    };
    const six = [0, 1, 2, 3, 4, 5];
    return {
      head: `<th class="live" scope="col" title="how many variables are there: register pressure">live</th>` +
        (hasPrices ? six.map((r) => `<th class="heat" scope="col" title="prices of ${REGISTERS[r]}"><span>${REGISTERS[r]}</span></th>`).join("") : ""),
      empty: `<td class="live"></td>` + (hasPrices ? `<td class="heat"></td>`.repeat(6) : ""),
      cells: (layer) => live(layer) + (hasPrices ? six.map((r) => cell(layer, r)).join("") : ""),
    };
  }

  function inWeights(price) {
    return (price / page.units).toFixed(2).replace(/\.?0+$/, "").replace(/^-0$/, "0");
  }

  function gap(p, block, at, layer, heat, isLast) {
    const moves = at.moves.get(layer);
    if (!moves || at.isPart && [...moves.keys()].every((column) => column === undefined)) return "";
    const drawn = [];
    for (const [column, place] of at.rows[layer]) {
      const v = at.columns[column], move = moves.get(column);
      if (!move) {
        const stays = at.rows[layer - 1].has(column);
        if (stays) drawn.push([column, `<td data-v="${v}" class="p${place.toString(16)}"></td>`]);
        continue;
      }
      const [, , from, to, events, price] = move;
      const named = events.map((e) => `${page.events[e]} (event ${e})`).join(", ") || "no event";
      const words = `${p.names[v]} goes from ${placeName(from)} to ${placeName(to)}: ${named}: ${cost(price)}`;
      const marks = events.length ? ` <span class="faint">e${events.join(",")}</span>` : "";
      drawn.push([column, `<td data-v="${v}" data-m="${events.join(",")}" data-w="${price}" class="goes" title="${escaped(words)}">↓${cost(price)}${marks}</td>`]);
    }
    return `<tr class="gap"><td class="layer"></td>${heat.empty}<td class="what">moves, ${cost(at.sums.get(layer))}</td><td class="machine">${machine(isLast && block.moved ? block.moved[layer] : [])}</td>${row(drawn, at.columns.length)}</tr>`;
  }

  // Where else the source says what a block does.
  function linesOf(block) {
    const lines = block.lines || [];
    if (!lines.length) return "";
    const links = lines.map((n) => `<a href="#L${n}">${n}</a>`).join(", ");
    return ` <span class="faint lines">line${lines.length > 1 ? "s" : ""} ${links}</span>`;
  }

  // The grid of a block, or of its columns and instructions those of a part, as paper has it.
  function grid(p, number, part) {
    const state = shownState[p.number], block = p.blocks[number], columns = part ? part.columns : variables(p, block);
    const { from: begin, to: end, told } = part || { from: -1, to: block.code.length, told: -2 };
    const at = layers(block, columns, drawnIn(p, state, number), p.kinds), isLast = state === p.states.length - 1;
    const other = besides(p), isSame = other < 0 || drawnIn(p, other, number) === drawnIn(p, state, number);
    const before = isSame ? null : layers(block, columns, drawnIn(p, other, number), p.kinds);
    const wrong = new Map((p.states[state].wrong || []).filter((it) => it[0] === number)
      .map(([, v, layer, why]) => [layer + " " + columns.indexOf(v), why]));
    if (before) before.name = isNamed(p) ? p.states[other].name : "";
    at.wrong = wrong;
    at.isPart = Boolean(part);
    const heat = heatOf(p, block, at), mems = new Map(block.mems);
    const machineOf = (lines) => machine(isLast ? lines : []);
    let head = "";
    for (const v of columns) {
      head += `<th scope="col" data-v="${v}"><button type="button" data-mark="${v}" title="${escaped(p.words[v])}">${escaped(p.names[v])}</button></th>`;
    }
    const from = number ? (block.from.length ? "from block " + block.from.join(", ") : "never reached") : "the procedure begins";
    const layer = (n) => `<th scope="row" class="layer">${n}</th>${heat.cells(n)}`;
    let out = begin < 0 ? `<tr>${layer(0)}<td class="what faint">${from}</td><td class="machine">${machineOf(number || told >= -1 ? [] : p.prologue)}</td>${cells(p, at, 0, before)}</tr>` : "";
    block.code.forEach((text, i) => {
      if (i < begin || i > end) return;
      const pair = block.pairs[i], price = mems.get(i);
      const note = pair && pair.every((v) => p.kinds[v] !== "co")
        ? ` title="at most one of ${escaped(p.names[pair[0]])} and ${escaped(p.names[pair[1]])} is in memory here"` : "";
      const paid = price ? ` <span class="pair" data-mem="${i} ${price}" title="the price of the one memory operand">pair ${inWeights(price)}</span>` : "";
      out += gap(p, block, at, 2 * i + 1, heat, isLast);
      out += `<tr class="before">${layer(2 * i + 1)}<td class="what" rowspan="2"${note}>${escaped(text)}${paid}</td><td class="machine" rowspan="2">${machineOf(i > told && block.machine && block.machine[i])}</td>`;
      out += `${cells(p, at, 2 * i + 1, before)}</tr>`;
      out += `<tr>${layer(2 * i + 2)}${cells(p, at, 2 * i + 2, before)}</tr>`;
    });
    if (end === block.code.length) {
      const exit = 2 * block.code.length + 1;
      out += gap(p, block, at, exit, heat, isLast);
      out += `<tr class="end">${layer(exit)}<td class="what">${escaped(block.end)}</td><td class="machine">${machineOf(end > told ? block.ended : [])}</td>${cells(p, at, exit, before)}</tr>`;
    }
    return `<table class="grid${block.machine ? "" : " no-machine"}" data-block="${number}">${caption(`Where variables are in block ${number} of ${p.name}`)}<thead><tr><th class="layer" scope="col" title="the number of the layer">layer</th>${heat.head}<th class="what" scope="col">instruction</th><th class="machine" scope="col">machine instructions${isLast || isNamed(p) ? "" : " <span class=\"faint\">(of the last round)</span>"}</th>${head}</tr></thead><tbody>${out}</tbody></table>`;
  }

  // ---- least priced paths

  // What a path of a strand costs from one layer to the next, and what it pays at each, in units of
  // prices.
  function pricedStrand(p, block, strand) {
    const [v, first, letters, tolls] = strand, turns = Math.pow(page.turns, Math.min(block.depth, 5));
    const masks = [...letters].map((c) => page.masks[c.charCodeAt(0) - 48]);
    const at = masks.map(() => new Array(PLACES).fill(0));
    for (const [layer, place, price] of tolls) at[layer - first][place] += price;
    for (const [layer, register, price] of block.caps) {
      const row = at[layer - first];
      if (row) [register, register + 8].forEach((place) => { row[place] += price; });
    }
    const way = (from, to) => p.ways[from * PLACES + to] * turns * page.units;
    const isConstant = p.kinds[v] === "co";
    const goes = (step, from, to) => ((first + step) % 2 === 0 ? (from === to ? 0 : Infinity) : way(from, to));
    return { masks, at, goes, begins: (place) => (isConstant ? way(7, place) : 0) };
  }

  function placesOf(mask) {
    return Array.from({ length: PLACES }, (_, place) => place).filter((place) => (mask >> place) & 1);
  }

  // At each layer of a strand, of each place what the least path through it costs.
  function through(q) {
    const blank = () => new Array(PLACES).fill(Infinity);
    const forward = q.masks.map(blank), backward = q.masks.map(blank), last = q.masks.length - 1;
    q.masks.forEach((mask, i) => {
      for (const to of placesOf(mask)) {
        const come = i === 0 ? q.begins(to)
          : Math.min(...placesOf(q.masks[i - 1]).map((from) => forward[i - 1][from] + q.goes(i, from, to)));
        forward[i][to] = come + q.at[i][to];
      }
    });
    for (let i = last; i >= 0; i--) {
      for (const from of placesOf(q.masks[i])) {
        backward[i][from] = i === last ? 0 : Math.min(...placesOf(q.masks[i + 1])
          .map((to) => q.goes(i + 1, from, to) + q.at[i + 1][to] + backward[i + 1][to]));
      }
    }
    return forward.map((row, i) => row.map((it, place) => it + backward[i][place]));
  }

  function ownPath(q, path) {
    const places = [...path].map((digit) => parseInt(digit, 16));
    return places.reduce((sum, to, i) => sum + q.at[i][to] + (i ? q.goes(i, places[i - 1], to) : q.begins(to)), 0);
  }

  // What the prices of a procedure show: no allocation costs less.
  function valueOf(p) {
    let sum = 0;
    for (const block of p.blocks) {
      for (const strand of block.strands) sum += Math.min(...through(pricedStrand(p, block, strand))[0]);
      for (const it of [...block.caps, ...block.mems]) sum -= it.at(-1);
    }
    return sum;
  }

  // What the variable of a cell would pay elsewhere.
  function elsewhere(p, number, v, layer) {
    const block = p.blocks[number], drawn = drawnIn(p, shownState[p.number], number);
    const at = block.strands.findIndex((s) => s[0] === v && s[1] <= layer && layer < s[1] + s[2].length);
    if (at < 0) return "";
    const strand = block.strands[at], q = pricedStrand(p, block, strand), own = ownPath(q, drawn.paths[at]);
    const place = parseInt(drawn.paths[at][layer - strand[1]], 16), row = through(q)[layer - strand[1]];
    const others = placesOf(q.masks[layer - strand[1]]).filter((it) => it !== place && row[it] < Infinity)
      .sort((a, b) => row[a] - row[b])
      .map((it) => `${placeName(it)} ${row[it] < own ? "\u2212" : "+"}${inWeights(Math.abs(row[it] - own))}`);
    const told = `${p.names[v]}, block ${number}, layer ${layer}: ${placeName(place)}.`;
    const paid = `Its way through this block costs ${inWeights(own)} with prices`;
    return others.length ? `${told} ${paid}; by way of ${others.join(", ")}.` : `${told} ${paid}; it can't be elsewhere here.`;
  }

  function loops(depth) {
    return depth === 0 ? "in no loop" : depth === 1 ? "in a loop" : `in ${depth} loops`;
  }

  // ---- what each event cost

  function paidTable(p) {
    let out = `<div class="wide"><table class="plain paid">${caption("What each event cost in " + p.name)}<thead><tr><th scope="col">event</th><th scope="col">what happens</th><th scope="col" class="number">times</th><th scope="col" class="number">cost</th></tr></thead><tbody>`;
    for (const [event, count, total] of p.paid) {
      out += `<tr><td>e${event}</td><td>${page.events[event]}</td><td class="number">${count}</td><td class="number">${total}</td></tr>`;
    }
    const sum = p.paid.reduce((all, it) => all + it[2], 0);
    return out + `</tbody><tfoot><tr><td></td><td>in all</td><td></td><td class="number" data-sum>${sum}</td></tr></tfoot></table></div>`;
  }

  // ---- the slider over rounds

  function stateWords(p) {
    if (isNamed(p)) {
      const { name, cost: paid, bound, reasons } = p.states[shownState[p.number]];
      return `${name}: cost ${paid}, ${reasons.length ? "refused" : `bound ${bound}`}`;
    }
    const state = p.states[shownState[p.number]], made = p.rounds[page.cost].length - 1;
    const rounds = state.rounds, last = rounds === made ? ", the last" : "";
    const told = state.rounds === null ? "" : `After ${rounds} round${rounds === 1 ? "" : "s"}${last}: `;
    return `${told}cost ${state.cost}, bound ${state.bound}`;
  }

  // Of certificates a button each.
  function choices(p) {
    const buttons = p.states.map((it, i) => `<button type="button" data-choice="${i}" aria-pressed="${i === shownState[p.number]}">${escaped(it.name)}</button>`);
    return `<p class="slider" role="group" aria-label="Which certificate is shown">${buttons.join(" ")} <output data-state="${shownState[p.number]}">${escaped(stateWords(p))}</output></p>`;
  }

  function slider(p) {
    if (isNamed(p)) return choices(p);
    if (p.states.length < 2) return "";
    const ticks = p.states.map((it, i) => `<option value="${i}" label="${it.rounds}"></option>`).join("");
    return `<p class="slider"><label for="slider${p.number}">Rounds</label> ` +
      `<input type="range" id="slider${p.number}" data-slider min="0" max="${p.states.length - 1}" value="${shownState[p.number]}" list="ticks${p.number}" aria-valuetext="${stateWords(p)}">` +
      `<datalist id="ticks${p.number}">${ticks}</datalist> <output data-state="${shownState[p.number]}">${stateWords(p)}</output></p>`;
  }

  function slide(section, state) {
    const p = procedureOf(numberOf(section)), input = section.querySelector("[data-slider]");
    shownState[p.number] = Math.max(0, Math.min(state, p.states.length - 1));
    if (input) {
      input.value = shownState[p.number];
      input.setAttribute("aria-valuetext", stateWords(p));
    }
    section.querySelectorAll("[data-choice]").forEach((it) => it.setAttribute("aria-pressed", String(Number(it.dataset.choice) === shownState[p.number])));
    if (!section.querySelector("output")) return;
    const output = section.querySelector("output");
    output.textContent = stateWords(p);
    output.dataset.state = shownState[p.number];
    section.querySelectorAll("[data-grid]").forEach((box) => {
      if (!box.firstChild) return;
      const scrolled = [box.scrollLeft, box.scrollTop];
      box.innerHTML = grid(p, Number(box.dataset.grid));
      [box.scrollLeft, box.scrollTop] = scrolled;
      begin(box);
    });
  }

  // ---- certificates beside each other

  // Why certificates are refused.
  function reasons(p) {
    return p.states.filter((it) => (it.reasons || []).length).map((it) =>
      `<p>${escaped(it.name)} is refused:</p><ul class="reasons">${it.reasons.map((why) => `<li>${escaped(why)}</li>`).join("")}</ul>`).join("");
  }

  // Which variables go other ways in other certificates, block by block, and what that costs.
  function differences(p) {
    if (!isNamed(p) || p.states.length < 2) return "";
    if (!p.differs.length) return `<h3>What differs</h3><p>Nothing: all routes of this procedure are the same.</p>`;
    const rows = p.differs.map(([state, block, v, one, two]) => {
      const more = two - one, told = more === 0 ? "as much" : more > 0 ? `${more} more` : `${-more} less`;
      return `<tr><td><button type="button" data-mark="${v}">${escaped(p.names[v])}</button></td><td><a href="#p${p.number}b${block}">block ${block}</a></td><td class="number">${one}</td><td class="number">${two}</td><td>${told} in ${escaped(p.states[state].name)}</td></tr>`;
    });
    const first = escaped(p.states[0].name);
    return `<h3>What differs, and what it costs</h3><p class="faint">A cell that differs shows small where the variable is in the other certificate.</p><div class="wide"><table class="plain">${caption("What differs in " + p.name)}<thead><tr><th scope="col">variable</th><th scope="col">where</th><th scope="col" class="number">in ${first}</th><th scope="col" class="number">in the other</th><th scope="col">which costs</th></tr></thead><tbody>${rows.join("")}</tbody></table></div>`;
  }

  function costsTable(p) {
    const rows = p.states.map((it) => `<tr><td>${escaped(it.name)}</td><td class="number">${it.cost}</td><td class="number">${it.reasons.length ? "refused" : it.bound}</td></tr>`);
    for (const [name, value] of Object.entries(p.others[page.cost] || {})) rows.push(`<tr><td>${name}</td><td class="number">${value ?? "none"}</td><td></td></tr>`);
    return `<div class="wide"><table class="plain">${caption("Costs and bounds of " + p.name)}<thead><tr><th scope="col">certificate</th><th scope="col" class="number">cost</th><th scope="col" class="number">bound</th></tr></thead><tbody>${rows.join("")}</tbody></table></div>`;
  }

  // ---- procedures

  // The first cell of a grid is reached by Tab, the others by arrow keys from there.
  function begin(box) {
    const first = box.querySelector("td[data-l]");
    if (first) first.tabIndex = 0;
  }

  function fill(box) {
    if (box.firstChild) return;
    const section = box.closest("section.procedure");
    box.innerHTML = grid(procedureOf(numberOf(section)), Number(box.dataset.grid));
    box.style.minHeight = "";
    begin(box);
  }

  // The parts in which paper has the grid of a block: as many variables as it is wide, in the order
  // in which they come, and the instructions from the first layer that one of them is at to the last
  // one, or to where the next part begins. -1 stands for the entry, and the count of instructions
  // for the exit; machine instructions that a part before has told are left out.
  function parts(p, block) {
    const first = new Map(), last = new Map(), all = variables(p, block), found = [];
    const at = (layer) => Math.ceil(layer / 2) - 1;
    for (const [v, begin, path] of block.strands) {
      const end = begin + path.length - 1;
      first.set(v, Math.min(first.get(v) ?? begin, begin));
      last.set(v, Math.max(last.get(v) ?? end, end));
    }
    const columns = all.length > ON_PAPER ? all.sort((a, b) => first.get(a) - first.get(b)) : all;
    let told = -2;
    for (let n = 0; n === 0 || n < columns.length; n += ON_PAPER) {
      const some = columns.slice(n, n + ON_PAPER), next = columns.slice(n + ON_PAPER);
      const from = n ? at(first.get(some[0])) : -1;
      const ends = some.map((v) => at(last.get(v)));
      const upTo = next.length ? at(first.get(next[0])) - 1 : told < block.code.length ? block.code.length : -1;
      const to = Math.max(...ends, upTo);
      found.push({ columns: some, from, to, told });
      told = Math.max(told, to);
    }
    return found;
  }

  // Fills a box with the grids that paper has; one that fits on a page stays in one piece.
  function printed(box) {
    const p = procedureOf(numberOf(box.closest("section.procedure"))), number = Number(box.dataset.grid);
    box.dataset.printed = "yes";
    box.style.minHeight = "";
    box.innerHTML = parts(p, p.blocks[number]).map((it) => grid(p, number, it)).join("");
    box.classList.toggle("is-short", box.querySelectorAll("tr").length <= A_PAGE);
  }

  const sight = new IntersectionObserver((entries) => {
    for (const it of entries) if (it.isIntersecting) { sight.unobserve(it.target); fill(it.target); }
  }, { rootMargin: "600px" });

  function priceWords(p) {
    const has = p.blocks.some((b) => b.caps.length || b.mems.length);
    const value = valueOf(p), shows = Math.max(0, Math.ceil(value / page.units));
    const told = `The prices after the last round show that no allocation costs less than <span data-value="${value}">${shows}</span>`;
    const why = has ? "the colour of a cell beside a layer is the price of a register" : "no register has a price, so all that is paid is what the cheapest ways cost by themselves";
    return `<p class="faint">${told}: ${why} (<a href="#prices">more</a>).</p>`;
  }

  function draw(section) {
    const body = section.querySelector(".body");
    inSight.unobserve(body);
    if (body.dataset.drawn) return;
    body.dataset.drawn = "yes";
    body.style.minHeight = "";
    const p = procedureOf(numberOf(section));
    let out = reasons(p);
    out += isNamed(p) ? `<h3>Cost and bound</h3>${costsTable(p)}` : `<h3>Cost and bound, round by round</h3><div class="curves"></div>`;
    if (p.blocks.length > 1) out += `<h3>Blocks and loops</h3>${flow(p)}`;
    out += `<h3>Where variables are</h3>`;
    out += `<p><button type="button" class="tool only-narrow" data-machine>Show or hide prices and machine instructions</button></p>`;
    out += `<div class="bar">${slider(p)}<div class="marked-bar" aria-live="polite" hidden><span></span><button type="button" data-unmark>unmark</button></div></div>`;
    p.blocks.forEach((block, number) => {
      out += `<h3 id="p${p.number}b${number}">Block ${number}, ${loops(block.depth)}${linesOf(block)}</h3>`;
      out += `<div class="grid-box" data-grid="${number}" tabindex="0" role="region" aria-label="Grid of block ${number}" style="min-height: ${Math.min(560, 60 + 40 * block.code.length)}px"></div>`;
    });
    out += `${differences(p)}<h3>What each event cost</h3>${paidTable(p)}${isNamed(p) ? "" : roundsTable(p)}${priceWords(p)}${levelWords(p)}`;
    body.innerHTML = out;
    drawCurves(section);
    section.querySelectorAll("[data-grid]").forEach((box) => sight.observe(box));
  }

  // ---- marking a variable

  const sheet = document.head.appendChild(document.createElement("style")).sheet;
  const rules = {};

  function told(p, v) {
    const where = {};
    let layersSeen = 0, paid = 0;
    p.blocks.forEach((block, number) => {
      const drawn = drawnIn(p, shownState[p.number], number);
      block.strands.forEach(([w], at) => {
        const path = drawn.paths[at];
        if (w !== v) return;
        layersSeen += path.length;
        for (const digit of path) {
          const name = placeName(parseInt(digit, 16));
          where[name] = (where[name] || 0) + 1;
        }
      });
      for (const move of drawn.moves) if (move[1] === v) paid += move[5];
      for (const extra of drawn.extras) if (extra[1] === v) paid += extra[3];
    });
    const parts = Object.entries(where).sort((a, b) => b[1] - a[1]).map(([name, n]) => `${name} at ${n}`);
    return `${p.names[v]}, ${p.words[v]}. It is present at ${layersSeen} layers: ${parts.join(", ")}. Its moves and operands cost ${paid}.`;
  }

  // One rule of the style sheet a procedure: all columns but the marked one fade.
  function show(section, v) {
    const id = section.id;
    if (rules[id] !== undefined) {
      const at = [...sheet.cssRules].indexOf(rules[id]);
      if (at >= 0) sheet.deleteRule(at);
      delete rules[id];
    }
    if (v !== null) {
      const at = sheet.insertRule(`#${id} .grid [data-v]:not([data-v="${v}"]) { opacity: .25; }`, sheet.cssRules.length);
      rules[id] = sheet.cssRules[at];
    }
  }

  function mark(section, v) {
    const id = section.id, bar = section.querySelector(".marked-bar");
    marks[id] = marks[id] === v ? null : v;
    show(section, marks[id]);
    bar.hidden = marks[id] === null;
    if (!bar.hidden) bar.firstChild.textContent = told(procedureOf(numberOf(section)), v);
    section.querySelectorAll("[data-mark]").forEach((b) => b.setAttribute("aria-pressed", String(Number(b.dataset.mark) === marks[id])));
  }

  document.addEventListener("click", (event) => {
    const section = event.target.closest("section.procedure");
    if (event.target.closest("[data-open]")) return openAll();
    if (!section) return undefined;
    const choice = event.target.closest("[data-choice]");
    if (choice) return slide(section, Number(choice.dataset.choice));
    if (event.target.closest("[data-unmark]")) return mark(section, marks[section.id]);
    if (event.target.closest("[data-machine]")) return section.classList.toggle("with-machine");
    const cell = event.target.closest("[data-v], [data-mark]");
    if (cell) mark(section, Number(cell.dataset.v ?? cell.dataset.mark));
    return undefined;
  });

  // ---- the line at the foot, and keys

  const foot = document.body.appendChild(document.createElement("div"));
  foot.className = "foot";
  foot.hidden = true;
  foot.setAttribute("role", "status");

  function tellCell(cell) {
    const section = cell && cell.closest("section.procedure");
    foot.hidden = !section;
    if (!section) return;
    const number = Number(cell.closest("table").dataset.block);
    foot.textContent = elsewhere(procedureOf(numberOf(section)), number, Number(cell.dataset.v), Number(cell.dataset.l));
  }

  document.addEventListener("mouseover", (event) => {
    const section = event.target.closest("section.procedure");
    tellCell(event.target.closest("td[data-l]"));
    if (!section || marks[section.id] != null) return;
    const cell = event.target.closest(".grid thead [data-v]");
    show(section, cell ? Number(cell.dataset.v) : null);
  });
  document.addEventListener("focusin", (event) => tellCell(event.target.closest("td[data-l]")));
  document.addEventListener("input", (event) => {
    if (event.target.matches("[data-slider]")) slide(event.target.closest("section"), Number(event.target.value));
  });

  // The next cell in the direction of a key: in a column over layers, in a row over columns.
  function nextCell(cell, key) {
    const table = cell.closest("table"), v = cell.dataset.v, layer = Number(cell.dataset.l);
    const down = { ArrowUp: -1, ArrowDown: 1 }[key], aside = { ArrowLeft: "previousElementSibling", ArrowRight: "nextElementSibling" }[key];
    if (down) {
      const rows = [...table.querySelectorAll(`td[data-v="${v}"][data-l]`)];
      return rows[rows.indexOf(cell) + down] || table.querySelector(`td[data-l="${layer + down}"]`);
    }
    let next = cell[aside];
    while (next && next.dataset.l === undefined) next = next[aside];
    return next;
  }

  document.addEventListener("keydown", (event) => {
    const cell = event.target.closest("td[data-l]"), section = event.target.closest("section.procedure");
    if (!cell) return;
    if (event.key.startsWith("Arrow")) {
      const next = nextCell(cell, event.key);
      event.preventDefault();
      if (next) { cell.tabIndex = -1; next.tabIndex = 0; next.focus(); next.scrollIntoView({ block: "nearest", inline: "nearest" }); }
    } else if (event.key === "Enter" || event.key === " ") {
      event.preventDefault();
      mark(section, Number(cell.dataset.v));
    } else if (event.key === "Escape" && marks[section.id] != null) mark(section, marks[section.id]);
  });

  // ---- opening

  const sections = [...document.querySelectorAll("section.procedure")];

  function open(section) {
    section.querySelector("details").open = true;
    draw(section);
  }

  // A procedure that is open is drawn when it comes into sight; until then it has about its room.
  const inSight = new IntersectionObserver((entries) => {
    for (const it of entries) if (it.isIntersecting) draw(it.target.closest("section.procedure"));
  }, { rootMargin: "800px" });

  function awaitSight(section) {
    const body = section.querySelector(".body");
    if (body.dataset.drawn) return;
    body.style.minHeight = "90vh";
    inSight.observe(body);
  }

  function openAll() {
    sections.forEach((section) => {
      section.querySelector("details").open = true;
      awaitSight(section);
    });
  }

  // All procedures with all grids, in one of their states, as tests want them.
  function drawAll(state) {
    sections.forEach((section) => {
      open(section);
      section.querySelectorAll("[data-grid]").forEach(fill);
      if (state !== undefined) slide(section, state);
    });
  }

  function follow() {
    const name = decodeURIComponent(location.hash.slice(1));
    const found = /^p(\d+)/.exec(name);
    const all = /^all(?:@(\d+))?$/.exec(name);
    if (all) drawAll(all[1] === undefined ? undefined : Number(all[1]));
    else if (found && sections[Number(found[1])]) {
      open(sections[Number(found[1])]);
      // (all of them, since what is above the place would move it when it comes into sight)
      if (name.includes("b")) sections[Number(found[1])].querySelectorAll("[data-grid]").forEach(fill);
      const place = document.getElementById(name);
      if (place) place.scrollIntoView();
    } else if (/^L\d+$/.test(name)) document.querySelector("details.source").open = true;
  }

  sections.forEach((section) => {
    section.querySelector("details").addEventListener("toggle", (event) => {
      section.classList.toggle("is-open", event.target.open);
      if (event.target.open) awaitSight(section);
    });
  });
  if (sections.length) open(sections.length > 1 && page.first !== undefined ? sections[page.first] : sections[0]);
  window.addEventListener("hashchange", follow);
  window.addEventListener("resize", () => sections.forEach(drawCurves));
  // Paper has the open procedures alone, with all grids, and of a wide one some columns at a time.
  window.addEventListener("beforeprint", () => sections.forEach((section) => {
    const isOpen = section.querySelector("details").open;
    section.classList.toggle("is-open", isOpen);
    if (!isOpen) return;
    draw(section);
    section.querySelectorAll("[data-grid]").forEach((box) => printed(box));
  }));
  window.addEventListener("afterprint", () => document.querySelectorAll("[data-printed]").forEach((box) => {
    box.removeAttribute("data-printed");
    box.innerHTML = "";
    fill(box);
  }));
  follow();
  document.documentElement.dataset.ready = "yes";
})();
