
"use strict";
// Draws the lists of the page. Whatever comes from the report is set as text, never as HTML. Of a list only the lines in view are there.
(() => {
    const data = JSON.parse(document.getElementById("data").textContent);
    const LINE = 50, HEIGHT = 28, MOST_IN_VIEW = 14, BEYOND = 8;
    const lists = [], wanted = { left: [], right: [], any: [], least: 0, columns: [] };

    function make(tag, attributes, ...children) {
        const element = document.createElement(tag);
        for (const [name, value] of Object.entries(attributes || {})) {
            if (name === "onclick") element.addEventListener("click", value);
            else if (value !== null && value !== false) element.setAttribute(name, value === true ? "" : value);
        }
        element.append(...children.map(child => typeof child === "object" ? child : document.createTextNode(String(child))));
        return element;
    }
    const counted = (number, what) => `${number.toLocaleString("en")} ${what}${number === 1 ? "" : "s"}`;
    const named = (one, columns) => columns.map(c => one.columns[c]).join(", ");
    const dotted = (one, columns) => columns.map(c => `${one.name}.${one.columns[c]}`).join(", ");

    // ---------------------------------------------------------------- lines

    // A line of a list: texts of both sides (right is null of a key), how many columns the left one has, the score with its reasons, and
    // the columns that take part, as "relation.column" numbers.
    function line(left, right, size, points, why, parts, byKey) {
        return { left, right, size, points, why, parts, byKey, low: null };
    }
    const parts = (i, columns) => columns.map(c => `${i}.${c}`);

    function isWanted(row) {
        if (row.points !== undefined && row.points < wanted.least) return false;
        if (!wanted.columns.every(place => row.parts.includes(place))) return false;
        if (!wanted.any.length && !wanted.left.length && !wanted.right.length) return true;
        if (row.low === null) row.low = [row.left.toLowerCase(), (row.right || "").toLowerCase()];
        const [left, right] = row.low;
        return wanted.any.every(word => left.includes(word) || right.includes(word)) &&
            wanted.left.every(word => left.includes(word)) && wanted.right.every(word => right.includes(word));
    }

    // How lines are compared by a head; without a score comes last.
    const BY = {
        score: (a, b) => (b.points ?? -1) - (a.points ?? -1), size: (a, b) => a.size - b.size,
        left: (a, b) => a.left < b.left ? -1 : a.left > b.left ? 1 : 0, right: (a, b) => a.right < b.right ? -1 : a.right > b.right ? 1 : 0,
    };

    class List {
        constructor(title, heads, rows, left, option) {
            this.rows = rows;
            this.left = left;
            this.by = null;
            this.isUp = true;
            this.isOne = !("right" in heads);
            this.withKeys = !option;
            this.count = make("small", { class: "count", "aria-live": "polite" });
            this.heads = make("div", { class: "heads" + (this.isOne ? " one" : "") }, ...Object.entries(heads).flatMap(([name, text]) => this.head(name, text)));
            this.space = make("div", { class: "space" });
            this.box = make("div", { class: "list", tabindex: "0", role: "region", "aria-label": title }, this.space);
            this.told = make("div", { class: "told", "aria-live": "polite" });
            this.box.addEventListener("scroll", () => this.draw(), { passive: true });
            this.box.addEventListener("keydown", event => this.move(event));
            const titled = make("h3", {}, title + " ", this.count);
            this.element = make("div", {}, titled, ...(option ? [this.option(option)] : []), this.heads, this.box, this.told);
            lists.push(this);
            this.choose();
        }
        head(name, text) {
            const button = make("button", { type: "button", onclick: () => this.sort(name) }, text);
            const head = make("span", { "data-head": name }, button);
            return name === "right" ? [make("span"), head] : [head];
        }
        option(text) {
            const box = make("input", { type: "checkbox" });
            box.addEventListener("change", () => { this.withKeys = box.checked; this.choose(); });
            return make("label", {}, box, " " + text);
        }
        sort(name) {
            this.isUp = this.by === name ? !this.isUp : true;
            this.by = name;
            for (const head of this.heads.querySelectorAll("[data-head]")) {
                if (head.dataset.head === name) head.setAttribute("aria-sort", this.isUp ? "ascending" : "descending");
                else head.removeAttribute("aria-sort");
            }
            this.choose();
        }
        choose() {
            this.shown = this.rows.filter(row => (this.withKeys || !row.byKey) && isWanted(row));
            if (this.by) {
                const compare = BY[this.by];
                this.shown.sort(this.isUp ? compare : (a, b) => compare(b, a));
            }
            const all = this.rows.length + this.left;
            this.count.textContent = this.shown.length === all ? all.toLocaleString("en")
                : `${this.shown.length.toLocaleString("en")} of ${all.toLocaleString("en")}` +
                    (this.left ? `, of which this page has the first ${this.rows.length.toLocaleString("en")}` : "");
            this.box.style.height = `${HEIGHT * Math.min(this.shown.length, MOST_IN_VIEW) + 2}px`;
            this.space.style.height = `${HEIGHT * this.shown.length}px`;
            this.box.hidden = this.heads.hidden = !this.shown.length;
            this.open = null;
            this.told.textContent = "";
            this.box.scrollTop = 0;
            this.first = -1;
            this.draw();
        }
        draw() {
            const first = Math.max(0, Math.floor(this.box.scrollTop / HEIGHT) - BEYOND);
            const end = Math.min(this.shown.length, first + MOST_IN_VIEW + 2 * BEYOND + 1);
            if (first === this.first && this.space.childElementCount === end - first) return;
            this.first = first;
            this.space.replaceChildren(...this.shown.slice(first, end).map((row, k) => this.lineOf(row, first + k)));
        }
        lineOf(row, k) {
            const isMeant = row.points >= LINE;
            const cells = [make("span", { class: "points" + (isMeant ? " meant" : "") }, row.points ?? ""), make("span", { class: "size" }, row.size),
                make("span", {}, row.left)];
            if (!this.isOne) cells.push(make("span", {}, "\u2192"), make("span", {}, row.right));
            const element = make("div", { class: "line" + (this.isOne ? " one" : "") + (row === this.open ? " open" : ""), onclick: () => this.tell(row) },
                ...cells);
            element.style.top = `${HEIGHT * k}px`;
            return element;
        }
        // Goes from line to line by the keys, and scrolls there.
        move(event) {
            const step = { ArrowDown: 1, ArrowUp: -1, PageDown: MOST_IN_VIEW, PageUp: -MOST_IN_VIEW, Home: -Infinity, End: Infinity }[event.key];
            if (!step || !this.shown.length) return;
            event.preventDefault();
            const k = Math.max(0, Math.min(this.shown.length - 1, this.shown.indexOf(this.open) + step)), top = HEIGHT * k;
            this.box.scrollTop = Math.min(top, Math.max(this.box.scrollTop, top + HEIGHT - this.box.clientHeight));
            if (this.shown[k] !== this.open) this.tell(this.shown[k]);
        }
        tell(row) {
            this.open = this.open === row ? null : row;
            this.told.textContent = this.open ? `${row.left}${this.isOne ? "" : " \u2192 " + row.right}${row.why ? ` (score ${row.points}: ${row.why})` : ""}` : "";
            this.first = -1;
            this.space.replaceChildren();
            this.draw();
        }
    }

    // ---------------------------------------------------------------- sections

    function keyLines(one, i) {
        return one.keys.map(([columns, points, why]) => line(named(one, columns) || "(no column: at most one row)", null, columns.length, points, why,
            parts(i, columns), 0));
    }
    function dependencyLines(one, i) {
        return one.deps.map(([left, right, byKey, points, why]) => line(named(one, left) || "(always the same)", named(one, right), left.length, points, why,
            parts(i, left.concat(right)), byKey));
    }
    function joinLines(ones, joins, offset) {
        return joins.map(([i, columns, j, others, , points, why]) => line(dotted(ones[i], columns), dotted(ones[j], others), columns.length, points, why,
            parts(i + offset, columns).concat(parts(j + offset, others)), 0));
    }

    // The columns of a relation, of which a click on one keeps what has it.
    function columnTable(one, i) {
        const inKeys = one.columns.map(() => 0), determines = one.columns.map(() => 0), determined = one.columns.map(() => 0);
        one.keys.forEach(([columns]) => columns.forEach(c => inKeys[c]++));
        one.deps.forEach(([left, right]) => { left.forEach(c => determines[c]++); right.forEach(c => determined[c]++); });
        const heads = [["No", true], ["Column", false], ...(one.kinds ? [["Kind", false], ["Values", true]] : []), ["In keys", true],
            ...(one.deps.length ? [["On the left", true], ["On the right", true]] : [])];
        const rows = one.columns.map((name, c) => [c + 1, name, ...(one.kinds ? [one.kinds[c], one.values[c]] : []), inKeys[c],
            ...(one.deps.length ? [determines[c], determined[c]] : [])]);
        const body = make("tbody");
        const fill = () => body.replaceChildren(...rows.map(row => make("tr", {}, ...row.map((cell, k) => k === 1
            ? make("td", {}, make("button", { type: "button", "data-place": `${i}.${row[0] - 1}`, "aria-pressed": String(wanted.columns.includes(
                `${i}.${row[0] - 1}`)), onclick: () => toggle(`${i}.${row[0] - 1}`, `${one.name}.${cell}`) }, make("bdi", {}, cell || "(no name)")))
            : make("td", heads[k][1] ? { class: "number" } : {}, typeof cell === "number" ? cell.toLocaleString("en") : cell)))));
        let by = 0, isUp = true;
        const head = make("tr", {}, ...heads.map(([text, isNumber], k) => make("th", isNumber ? { class: "number" } : {}, make("button", {
            type: "button", onclick: () => {
                isUp = by === k ? !isUp : !heads[k][1] || k === 0;
                by = k;
                rows.sort((a, b) => (a[k] < b[k] ? -1 : a[k] > b[k] ? 1 : 0) * (isUp ? 1 : -1));
                fill();
            },
        }, text))));
        fill();
        return make("div", { class: "scroll", tabindex: "0" }, make("table", {}, make("thead", {}, head), body));
    }

    function relation(one, i, isOpen, isTable) {
        const told = (one.rows >= 0 ? counted(one.rows, "row") + ", " : "") + counted(one.columns.length, "column") + (one.file ? ` (${one.file})` : "");
        const element = make("details", { open: isOpen }, make("summary", {}, make("bdi", {}, one.name), " ", make("small", {}, told)));
        const fill = () => {
            if (element.childElementCount > 1) return;
            element.append(columnTable(one, i), new List(isTable ? "Keys, that of the split first" : "Keys", { score: "Score", size: "Count", left: "Key" },
                keyLines(one, i), one.left[0]).element);
            if (!isTable) {
                element.append(new List("Dependencies", { score: "Score", size: "Count", left: "Columns", right: "determine" }, dependencyLines(one, i),
                    one.left[1], one.deps.some(d => d[2]) && "those of keys too, which say nothing more").element);
            }
        };
        element.addEventListener("toggle", () => { if (element.open) fill(); });
        if (isOpen) fill();
        return element;
    }

    function section(title, ...lists) {
        return make("section", {}, make("h2", {}, title), ...lists.map(list => list.element));
    }

    // ---------------------------------------------------------------- what is wanted

    let timer = 0;
    function later() {
        clearTimeout(timer);
        timer = setTimeout(() => lists.forEach(list => list.choose()), 60);
    }
    const words = text => text.toLowerCase().split(/[\s,]+/).filter(word => word);
    document.getElementById("search").addEventListener("input", event => {
        const [left, ...right] = event.target.value.split(/->|\u2192/);
        wanted.any = right.length ? [] : words(left);
        wanted.left = right.length ? words(left) : [];
        wanted.right = words(right.join(" "));
        later();
    });
    const least = document.getElementById("least");
    least.addEventListener("input", () => {
        wanted.least = Number(least.value);
        document.getElementById("least-told").textContent = least.value;
        later();
    });
    document.getElementById("theme").addEventListener("click", () => {
        const root = document.documentElement;
        const isDark = root.dataset.theme ? root.dataset.theme === "dark" : matchMedia("(prefers-color-scheme: dark)").matches;
        root.dataset.theme = isDark ? "light" : "dark";
    });
    const chips = document.getElementById("chips");
    function toggle(place, name) {
        const at = wanted.columns.indexOf(place);
        if (at < 0) {
            wanted.columns.push(place);
            chips.append(make("button", { type: "button", "data-chip": place, onclick: () => toggle(place, name) }, make("bdi", {}, name), " \u00d7"));
        } else {
            wanted.columns.splice(at, 1);
            chips.querySelector(`[data-chip="${place}"]`).remove();
        }
        document.querySelectorAll(`[data-place="${place}"]`).forEach(button => button.setAttribute("aria-pressed", String(at < 0)));
        later();
    }

    // ---------------------------------------------------------------- the page

    const everything = document.getElementById("lists"), offset = data.relations.length;
    if (data.remarks.length) {
        const remarks = document.getElementById("remarks");
        remarks.hidden = false;
        remarks.append(make("h2", {}, "Remarks"), ...data.remarks.map(text => make("p", {}, text)));
    }
    if (data.joins.length) {
        const into = data.joins.filter(join => join[4]), others = data.joins.filter(join => !join[4]);
        const heads = { score: "Score", size: "Count", left: "Columns", right: "whose values are in" };
        everything.append(section("Joins", new List("Into a key", heads, joinLines(data.relations, into, 0), 0),
            ...(others.length ? [new List("Into no key", heads, joinLines(data.relations, others, 0), 0)] : [])));
    }
    if (data.references.length) {
        everything.append(section("References of the split", new List("Into a key", { score: "Score", size: "Count", left: "Columns", right: "refer to" },
            joinLines(data.tables, data.references, offset), 0)));
    }
    data.relations.forEach((one, i) => everything.append(relation(one, i, i < 3, false)));
    data.tables.forEach((one, i) => everything.append(relation(one, i + offset, i < 3, true)));
    document.getElementById("least-label").hidden = ![...data.relations, ...data.tables].some(one => one.keys.some(key => key.length > 1)) &&
        !data.joins.some(join => join.length > 5);
    document.documentElement.dataset.drawn = "true";
})();
