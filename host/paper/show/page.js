"use strict";
(() => {
  const find = (id) => document.getElementById(id);
  const data = JSON.parse(find("data").textContent);
  const end = data.steps.length - 1;

  // Every so many steps the board is kept, so that a step back has not to begin at the start.
  const PAUSE = 25;
  const kept = [Object.fromEntries(data.sections.map((section) => [section.name, []]))];
  let here = -1;

  // A number so many rows on in a run.
  const numberAt = ([text, stride], rows) => {
    const number = BigInt.asUintN(64, BigInt(text) + BigInt(stride) * BigInt(rows));
    return text.startsWith("0x") ? "0x" + number.toString(16) : number.toString();
  };

  // A cell so many rows on in a run.
  const cellAt = (cell, rows) =>
    typeof cell === "string" || rows === 0
      ? cell
      : cell.map((piece) => (typeof piece === "string" ? piece : [numberAt(piece, rows), piece[1]]));

  // The text of a cell for a run of so many rows that it is the first of.
  const textOf = (cell, count) => {
    if (typeof cell === "string") return cell;
    const text = (piece) => {
      if (typeof piece === "string") return piece;
      return count > 1 ? piece[0] + " to " + numberAt(piece, count - 1) : piece[0];
    };
    return cell.map(text).join("");
  };

  const same = (one, two) => JSON.stringify(one) === JSON.stringify(two);

  // Whether a row stands so many rows behind another in a run.
  const follows = (row, first, rows) => row.every((cell, at) => same(cell, cellAt(first[at], rows)));

  // The rows of a section behind a step, with what became of each.
  const changed = (before, differences) => {
    const rows = [];
    let at = 0;
    const take = (mark, count) => {
      before.slice(at, at + count).forEach((cells) => rows.push({ mark, cells }));
      at += count;
    };
    differences.forEach((difference) => {
      if (typeof difference === "number") {
        take(difference > 0 ? "kept" : "gone", Math.abs(difference));
        return;
      }
      const [mark, count, ...first] = difference;
      for (let row = 0; row < count; row += 1) {
        const cells = first.map((cell) => cellAt(cell, row));
        if (mark === "+") rows.push({ mark: "added", cells });
        else rows.push({ mark: "changed", cells, was: before[at++] });
      }
    });
    take("kept", before.length - at);
    return rows;
  };

  // All sections behind a step, with what became of each row. On the fresh board nothing counts as added.
  const changedBoard = (before, step) => {
    const rows = (name) => {
      const all = changed(before[name], data.steps[step].changes[name] || []);
      return step === 0 ? all.map((row) => ({ ...row, mark: "kept" })) : all;
    };
    return Object.fromEntries(data.sections.map(({ name }) => [name, rows(name)]));
  };

  // The board behind a step; before the first of them nothing is there.
  const boardBehind = (step) => {
    let from = Math.floor((step + 1) / PAUSE);
    while (!kept[from]) from -= 1;
    let board = kept[from];
    for (let at = from * PAUSE; at <= step; at += 1) {
      const left = (rows) => rows.filter((row) => row.mark !== "gone").map((row) => row.cells);
      const rows = changedBoard(board, at);
      board = Object.fromEntries(data.sections.map(({ name }) => [name, left(rows[name])]));
      if ((at + 1) % PAUSE === 0) kept[(at + 1) / PAUSE] = board;
    }
    return board;
  };

  // Rows with how many each stands for: where there are many, like ones are folded.
  const folded = (rows) => {
    const runs = [];
    rows.forEach((row) => {
      const run = runs[runs.length - 1];
      const like =
        rows.length > data.most_rows &&
        run &&
        run.mark === row.mark &&
        follows(row.cells, run.cells, run.count) &&
        (!row.was || follows(row.was, run.was, run.count));
      if (like) run.count += 1;
      else runs.push({ ...row, count: 1 });
    });
    return runs;
  };

  const element = (name, text, parent) => {
    const made = document.createElement(name);
    if (text) made.textContent = text;
    if (parent) parent.append(made);
    return made;
  };

  const MARKS = { kept: "", added: "+", changed: "~", gone: "-" };

  const rowElement = ({ mark, cells, was, count }) => {
    const row = element("tr");
    row.className = mark;
    row.dataset.count = count;
    element("td", MARKS[mark], row);
    cells.forEach((cell, at) => {
      const text = textOf(cell, count);
      if (!was || same(was[at], cell)) {
        element("td", text, row);
        return;
      }
      const both = element("td", "", row);
      element("ins", text, both);
      both.append(" ");
      element("del", textOf(was[at], count), both);
    });
    return row;
  };

  const showAnswer = (step) => {
    find("place").textContent = step.place;
    find("text").textContent = step.text;
    find("words").textContent = step.words;
    find("words").className = step.refused ? "refused" : "met";
    find("line").textContent = step.line;
    find("walk").replaceChildren(...step.walk.map((line) => element("li", line)));
  };

  const showPicture = (step) => {
    if (step.picture === null) {
      find("picture").textContent =
        "The page has no room for this picture. paper show --as svg --after " + here + " draws it.";
    } else {
      find("picture").innerHTML = data.pictures[step.picture];
    }
  };

  const showControls = () => {
    find("slider").value = here;
    ["first", "back"].forEach((id) => (find(id).disabled = here === 0));
    ["next", "last"].forEach((id) => (find(id).disabled = here === end));
    document.querySelectorAll("nav li").forEach((item, at) => {
      if (at !== here) {
        item.removeAttribute("aria-current");
        return;
      }
      item.setAttribute("aria-current", "step");
      const list = item.closest("nav");
      const above = item.offsetTop - list.offsetTop;
      if (above < list.scrollTop || above + item.offsetHeight > list.scrollTop + list.clientHeight) {
        list.scrollTop = above - list.clientHeight / 2;
      }
    });
  };

  // Shows a step, or the nearest that there is.
  const show = (number) => {
    const wanted = Math.min(Math.max(number, 0), end);
    if (wanted === here) return;
    here = wanted;
    const step = data.steps[here];
    const rows = changedBoard(boardBehind(here - 1), here);
    showAnswer(step);
    data.sections.forEach(({ name }) => {
      const section = find(name);
      section.querySelector("tbody").replaceChildren(...folded(rows[name]).map(rowElement));
      section.querySelector("table").hidden = rows[name].length === 0;
      section.querySelector(".none").hidden = rows[name].length > 0;
    });
    showPicture(step);
    showControls();
  };

  // Goes to a step, and says so in the page's address.
  const go = (number) => {
    show(number);
    history.replaceState(null, "", "#" + here);
  };

  const asked = () => {
    const number = Number.parseInt(location.hash.slice(1), 10);
    return Number.isNaN(number) ? data.first : number;
  };

  const KEYS = {
    ArrowLeft: () => go(here - 1),
    ArrowRight: () => go(here + 1),
    k: () => go(here - 1),
    j: () => go(here + 1),
    Home: () => go(0),
    End: () => go(end),
  };

  // Every step with what it changed, for the printer.
  const printAll = () => {
    const paper = find("paper");
    paper.replaceChildren();
    let board = boardBehind(-1);
    data.steps.forEach((step, at) => {
      const part = element("section", "", paper);
      element("p", step.place, part);
      element("h2", step.text, part);
      element("p", step.words, part);
      const rows = changedBoard(board, at);
      data.sections.forEach(({ name, title }) => {
        const changes = folded(rows[name]).filter((row) => at === 0 || row.mark !== "kept");
        if (changes.length === 0) return;
        element("h3", title, part);
        element("tbody", "", element("table", "", part)).append(...changes.map(rowElement));
      });
      board = boardBehind(at);
    });
    document.body.classList.add("all");
    window.print();
  };

  window.addEventListener("afterprint", () => {
    document.body.classList.remove("all");
    find("paper").replaceChildren();
  });
  document.addEventListener("keydown", (event) => {
    const act = KEYS[event.key];
    const slides = event.target === find("slider") && event.key.length > 1;
    if (!act || slides || event.ctrlKey || event.altKey || event.metaKey || event.shiftKey) return;
    event.preventDefault();
    act();
  });
  window.addEventListener("hashchange", () => show(asked()));
  find("first").addEventListener("click", KEYS.Home);
  find("back").addEventListener("click", KEYS.ArrowLeft);
  find("next").addEventListener("click", KEYS.ArrowRight);
  find("last").addEventListener("click", KEYS.End);
  find("all").addEventListener("click", printAll);
  find("slider").max = end;
  find("slider").addEventListener("input", (event) => go(Number(event.target.value)));
  find("controls").hidden = false;
  show(asked());
})();
