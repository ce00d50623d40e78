"use strict";
// Draws a run of a script: one map of the zone after each call. All texts of the run are put in as texts.
const run = JSON.parse(document.getElementById("data").textContent);
const find = (id) => document.getElementById(id);
const hexadecimal = (number) => "$" + number.toString(16).toUpperCase().padStart(8, "0");
const plural = (count, what) => `${count.toLocaleString("en")} ${what}${count === 1 ? "" : "s"}`;
const KINDS = { master: "master block", free: "free", rel: "relocatable", ptr: "nonrelocatable" };
const FLAGS = { L: "locked", P: "purgeable", R: "a resource", O: "lent" };
// a row of the data as an object
const FIELDS = ["key", "kind", "at", "size", "handle", "name", "length", "flags", "contents", "master"];
const block = (row) => Object.fromEntries(FIELDS.map((name, at) => [name, row[at]]));
const steps = run.steps.map((it) => ({ ...it, blocks: it.blocks.map(block) }));
const state = { step: 0, chosen: "", timer: 0 };

// makes an element with attributes and a text or children
function element(name, attributes = {}, ...children) {
    const made = document.createElement(name);
    for (const [key, value] of Object.entries(attributes)) {
        if (key === "onclick") made.addEventListener("click", value);
        else if (value !== undefined) made.setAttribute(key, value);
    }
    made.append(...children);
    return made;
}

// what a block is, in words
function flagWords(it) {
    return [...it.flags].map((letter) => FLAGS[letter]);
}
function words(it) {
    const kind = it.kind === "master" ? "master block, 64 master pointers" : KINDS[it.kind];
    return [kind, ...flagWords(it)].join(", ");
}
function title(it) {
    if (it.kind === "free") return `${it.size} free`;
    if (it.kind === "master") return "master pointers";
    return [it.name, it.name ? "" : it.handle, plural(it.length, "byte")].filter(Boolean).join("  ");
}
function look(it) {
    if (it.flags.includes("O")) return "lent";
    if (it.flags.includes("L")) return "locked";
    return it.flags.includes("P") ? "purgeable" : "";
}

// where each block is drawn, from 0 to 1000: to scale, or with a least height for each
function places(blocks) {
    const end = run.start + run.limit;
    const first = blocks[0].at;
    const weigh = find("readable").checked ? (size) => 60 + 940 * Math.sqrt(size / (end - first)) : (size) => size;
    const rest = end - blocks[blocks.length - 1].at - blocks[blocks.length - 1].size;
    const sum = blocks.reduce((total, it) => total + weigh(it.size), 0) + (rest ? weigh(rest) : 0);
    let top = 0;
    return blocks.map((it) => {
        const height = (1000 * weigh(it.size)) / sum;
        top += height;
        return { top: top - height, height };
    });
}

// the map: each block keeps its element as long as it lives, so that it moves when the block does
const drawn = new Map();
function drawBlock(it, place, pixels) {
    let made = drawn.get(it.key);
    if (!made) {
        const where = element("span", { class: "where" });
        made = element("button", { type: "button", onclick: () => choose(it.key) }, element("span"), where);
        drawn.set(it.key, made);
        find("blocks").append(made);
    }
    const height = (place.height / 1000) * pixels;
    const classes = [it.kind, look(it), height < 13 ? "tiny" : "", it.key === state.chosen ? "chosen" : ""];
    made.className = classes.filter(Boolean).join(" ");
    made.style.top = `${place.top / 10}%`;
    made.style.height = `${place.height / 10}%`;
    made.firstChild.textContent = [title(it), flagWords(it).join(", ")].filter(Boolean).join("  ");
    made.lastChild.textContent = height < 13 ? "" : hexadecimal(it.at);
    const said = [...(it.handle ? [title(it)] : []), words(it), `${plural(it.size, "byte")} at ${hexadecimal(it.at)}`];
    made.setAttribute("aria-label", said.join(", "));
    made.title = `${hexadecimal(it.at)}: ${plural(it.size, "byte")}, ${words(it)} ${it.name || it.handle}`.trim();
}
// where a master pointer is drawn, in its block
function pointerPlace(it, blocks, where) {
    const has = (other) => other.kind === "master" && other.at <= it.master && it.master < other.at + other.size;
    const at = blocks.findIndex(has);
    return at < 0 ? null : where[at].top + (where[at].height * (it.master - blocks[at].at)) / blocks[at].size;
}
const arrows = new Map();
function drawArrow(it, from, to) {
    let path = arrows.get(it.key);
    if (!path) {
        path = document.createElementNS("http://www.w3.org/2000/svg", "path");
        arrows.set(it.key, path);
        find("arrows").append(path);
    }
    const left = 88 - 84 * Math.min(1, Math.sqrt(Math.abs(to - from) / 1000));
    const points = [100, from, "C", left, from, left, to, 100, to].map((it) => (it === "C" ? it : it.toFixed(2)));
    path.setAttribute("d", `M ${points.join(" ")}`);
    path.setAttribute("class", it.key === state.chosen ? "chosen" : "");
}
function drop(all, keys) {
    for (const [key, made] of all) {
        if (!keys.has(key)) {
            made.remove();
            all.delete(key);
        }
    }
}
function drawMap(blocks) {
    const where = places(blocks);
    const pixels = find("blocks").clientHeight;
    drop(drawn, new Set(blocks.map((it) => it.key)));
    blocks.forEach((it, at) => drawBlock(it, where[at], pixels));
    const ends = blocks.map((it, at) => [it, pointerPlace(it, blocks, where), where[at].top]);
    const handles = ends.filter(([it, from]) => it.master && from !== null);
    drop(arrows, new Set(handles.map(([it]) => it.key)));
    for (const [it, from, to] of handles) drawArrow(it, from, to);
}

// bytes in lines of 8: where they are, their digits, their letters
function dump(digits) {
    const bytes = digits.match(/../g) || [];
    const lines = [];
    for (let at = 0; at < bytes.length; at += 8) {
        const row = bytes.slice(at, at + 8);
        const codes = row.map((it) => parseInt(it, 16));
        const letters = codes.map((it) => (it >= 0x20 && it < 0x7f ? String.fromCharCode(it) : "."));
        const place = at.toString(16).toUpperCase().padStart(4, "0");
        lines.push(`${place}  ${row.join(" ").toUpperCase().padEnd(23)}  ${letters.join("")}`);
    }
    return lines.join("\n");
}
// the rows that say what a block is
function facts(it) {
    const master = `at ${it.handle}: it has the address ${hexadecimal(it.at + run.header)}`;
    return [
        ["what", words(it)],
        ...(it.master ? [["handle", `${it.handle} ${it.name}`], ["master pointer", master]] : []),
        ...(it.kind === "ptr" ? [["pointer", `${it.handle} ${it.name}`]] : []),
        ["header", `at ${hexadecimal(it.at)}, ${plural(run.header, "byte")}`],
        ["size", `${plural(it.size, "byte")} with the header`],
    ];
}
function drawData(blocks) {
    const shown = state.chosen || steps[state.step].block;
    const it = blocks.find((other) => other.key === shown);
    const box = find("block");
    box.replaceChildren(element("h2", {}, "Data"));
    if (!it) {
        box.append("Choose a block of the zone, or of the table, and its data are here.");
        return;
    }
    const list = element("dl");
    for (const [key, value] of facts(it)) list.append(element("dt", {}, key), element("dd", {}, value));
    box.append(list);
    if (it.contents >= 0) {
        const digits = run.contents[it.contents];
        const part = digits.length / 2 < it.length ? `the first ${digits.length / 2} of ` : "";
        const named = { class: "bytes", tabindex: "0", role: "group", "aria-label": "Contents" };
        box.append(`Contents, ${part}${plural(it.length, "byte")}:`, element("pre", named, dump(digits) || "none"));
    }
}

function cells(...texts) {
    return texts.map((it) => element("td", {}, it));
}
function tableRow(it) {
    const label = `${hexadecimal(it.at)}, ${it.handle ? title(it) : words(it)}`;
    const named = { type: "button", "aria-label": label, onclick: () => choose(it.key) };
    const what = it.handle ? `${it.name || it.handle}: ${words(it)}` : words(it);
    const chosen = { class: it.key === state.chosen ? "chosen" : "" };
    return element("tr", chosen, ...cells(element("button", named, hexadecimal(it.at)), String(it.size), what));
}
function drawTable(it) {
    find("table").tBodies[0].replaceChildren(...it.blocks.map(tableRow));
    const empty = it.empty.map(([number, name]) => (name ? `${name} (${number})` : number)).join(", ");
    find("empty").replaceChildren(...(empty ? [element("h2", {}, "Empty handles"), empty] : []));
}
const HEADS = ["type", "id", "name", "on the disk", "attributes", "handle"];
function fileTable([number, isCurrent, rows]) {
    const current = isCurrent ? ", the current one" : "";
    const heads = element("tr", {}, ...HEADS.map((it) => element("th", {}, it)));
    const lines = rows.map((row) => element("tr", {}, ...cells(...row.map(String))));
    return [
        element("h2", {}, `File ${number}, open${current}: ${plural(rows.length, "resource")}`),
        element("table", { "aria-label": `Resources of file ${number}` }, heads, ...lines),
    ];
}

// a line of a script, and its comment
function parted(line) {
    const code = line.match(/^(?:"[^"]*"|'[^']*'|[^#"'])*/)[0];
    return [code.trim(), line.slice(code.length + 1).trim()];
}
function drawCall(it) {
    const [code, remark] = it.line ? parted(run.lines[it.line - 1]) : ["Start", ""];
    const isRefused = it.marks.includes("refused");
    const said = it.line ? `${isRefused ? "refused:" : "returns"} ${it.reply.replace(/^\d+ \w+ ?/, "")}` : it.reply;
    const where = it.line ? `Line ${it.line}, call ${state.step} of ${steps.length - 1}` : "Before the first call";
    const events = it.events.map((text) => element("li", {}, text));
    find("call").replaceChildren(
        element("h2", {}, where),
        element("div", { class: "calls" }, it.line ? element("code", {}, code) : code),
        ...(remark ? [element("div", { class: "remark" }, remark)] : []),
        element("div", { class: isRefused ? "reply why" : "reply" }, said),
        ...(events.length ? [element("ul", {}, ...events)] : []),
    );
}

// the script, each line that makes a call a button
const buttons = new Map();
function lineOf(text, at, step) {
    const number = element("span", { class: "number" }, String(at + 1));
    const parts = [number, element("span", { class: "text" }, text || " ")];
    if (step === undefined) return element("li", {}, element("div", { class: "still" }, ...parts));
    const named = { type: "button", class: steps[step].marks.join(" "), onclick: () => show(step) };
    buttons.set(step, element("button", named, ...parts));
    return element("li", {}, buttons.get(step));
}
const codeOf = (it) => (it.line ? parted(run.lines[it.line - 1])[0] : "Start");
function makeLines() {
    const of = new Map(steps.map((it, at) => [it.line, at]));
    const lines = run.lines[run.lines.length - 1] === "" ? run.lines.slice(0, -1) : run.lines;
    find("lines").append(...lines.map((text, at) => lineOf(text, at, of.get(at + 1))));
    const mark = (it, at) => element("span", { class: it.marks[0] || "", onclick: () => show(at), title: codeOf(it) });
    find("marks").append(...steps.map(mark));
}
// scrolls a list so that a line of it is seen
function bring(list, button) {
    const above = button.offsetTop - list.offsetTop;
    const isSeen = above >= list.scrollTop && above + button.offsetHeight <= list.scrollTop + list.clientHeight;
    if (!isSeen) list.scrollTop = above - list.clientHeight / 3;
}
function markLine() {
    for (const [step, button] of buttons) {
        button.classList.toggle("chosen", step === state.step);
        if (step === state.step) button.setAttribute("aria-current", "step");
        else button.removeAttribute("aria-current");
    }
    [...find("marks").children].forEach((it, at) => it.classList.toggle("chosen", at === state.step));
    const button = buttons.get(state.step);
    if (button) bring(find("lines"), button);
    else find("lines").scrollTop = 0;
}

function show(step) {
    state.step = Math.max(0, Math.min(steps.length - 1, step));
    const it = steps[state.step];
    find("slider").value = String(state.step);
    find("slider").setAttribute("aria-valuetext", it.line ? `line ${it.line}: ${codeOf(it)}` : "start");
    drawCall(it);
    drawMap(it.blocks);
    drawData(it.blocks);
    drawTable(it);
    find("files").replaceChildren(...run.files[it.files].flatMap(fileTable));
    markLine();
    history.replaceState(null, "", `#${state.step}`);
}
function choose(key) {
    state.chosen = state.chosen === key ? "" : key;
    show(state.step);
}
function stop() {
    clearInterval(state.timer);
    state.timer = 0;
    find("play").textContent = "Play";
    find("play").setAttribute("aria-label", "Play");
}
function play() {
    if (state.timer) return stop();
    if (state.step === steps.length - 1) show(0);
    find("play").textContent = "Stop";
    find("play").setAttribute("aria-label", "Stop");
    state.timer = setInterval(() => {
        show(state.step + 1);
        if (state.step === steps.length - 1) stop();
    }, 1100);
}
function key(event) {
    if (event.altKey || event.ctrlKey || event.metaKey || event.target === find("slider")) return;
    const to = { ArrowLeft: state.step - 1, ArrowRight: state.step + 1, Home: 0, End: steps.length - 1 }[event.key];
    if (to === undefined) return;
    event.preventDefault();
    stop();
    show(to);
}

const size = steps[0].blocks.reduce((sum, it) => sum + it.size, 52);
const grown = run.limit > size ? `, which may grow to ${plural(run.limit, "byte")}` : "";
const zone = `A zone of ${plural(size, "byte")} at ${hexadecimal(run.start)}${grown}.`;
find("zone").textContent = `${zone} Left and right arrows go through its calls.`;
find("slider").max = String(steps.length - 1);
makeLines();
find("back").addEventListener("click", () => (stop(), show(state.step - 1)));
find("on").addEventListener("click", () => (stop(), show(state.step + 1)));
find("play").addEventListener("click", play);
find("slider").addEventListener("input", (event) => (stop(), show(Number(event.target.value))));
find("readable").addEventListener("change", () => show(state.step));
document.addEventListener("keydown", key);
addEventListener("resize", () => show(state.step));
show(Number(location.hash.slice(1)) || 0);
