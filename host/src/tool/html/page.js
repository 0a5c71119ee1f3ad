"use strict";
// A typed key lights its path; a node lights its pages, a page its nodes. Nothing is asked of the network.
(() => {
  const byId = (id) => document.getElementById(id);
  // Of each node: whether it is a leaf, its keys, its pointers, its link, its pages; null where there is no tree.
  const nodes = JSON.parse(byId("data").textContent);
  const said = byId("said");
  const atRest = said.textContent;
  const input = byId("key");
  const list = (word, numbers) => word + (numbers.length === 1 ? " " : "s ") + numbers.join(", ");

  const element = (name, text) => {
    const made = document.createElement(name);
    made.textContent = text;
    return made;
  };

  // A word that brings a node or a page into view.
  const link = (word, id) => {
    const made = element("button", word + " " + id.slice(1));
    made.type = "button";
    made.addEventListener("click", () => byId(id).scrollIntoView({ block: "center" }));
    return made;
  };

  // The pairs of a node in full, one of them marked.
  const show = (id, key) => {
    const box = byId("pairs");
    box.textContent = "";
    if (id === null) return;
    const [leaf, keys, pointers, link] = nodes[id];
    const arrow = leaf ? "" : "\u2192 node ";
    keys.forEach((bound, place) => {
      const pair = element("span", "");
      pair.append(element("b", leaf ? bound : "below " + bound), arrow + pointers[place]);
      if (leaf && bound === key) pair.className = "hit";
      box.append(pair);
    });
    if (!leaf) {
      const last = element("span", "");
      last.append(element("b", "above"), arrow + link);
      box.append(last);
    }
  };

  const light = (ids, pages, words, id = null, key = null) => {
    document.querySelectorAll(".lit").forEach((lit) => lit.classList.remove("lit"));
    ids.forEach((lit) => byId("n" + lit).classList.add("lit"));
    pages.forEach((lit) => byId("p" + lit).classList.add("lit"));
    document.body.classList.toggle("some", ids.length + pages.length > 0);
    said.replaceChildren(...[words].flat());
    show(id, key);
  };

  // The nodes from the root to the leaf where a key belongs.
  const route = (key) => {
    const path = [0];
    for (;;) {
      const [leaf, keys, pointers, link] = nodes[path[path.length - 1]];
      if (leaf) return path;
      const place = keys.findIndex((bound) => bound > key);
      path.push(place < 0 ? link : pointers[place]);
    }
  };

  const seek = (key) => {
    const path = route(key);
    const leaf = path[path.length - 1];
    const place = nodes[leaf][1].indexOf(key);
    const value = nodes[leaf][2][place];
    const found = place < 0 ? " is not there; it would be in the last of " : " has value " + value + ": ";
    const words = path.flatMap((id, step) => {
      const pages = nodes[id][4].flatMap((page) => [", ", link("page", "p" + page)]);
      return [step ? "; " : "", link("node", "n" + id), ...pages];
    });
    light(path, path.flatMap((id) => nodes[id][4]), ["Key " + key + found, ...words, "."], leaf, key);
  };

  // A number below 2^32, in decimal, or in hexadecimal behind 0x.
  const number = (text) => {
    const value = /^(\d+|0x[0-9a-f]+)$/i.test(text) ? Number(text) : NaN;
    return value < 2 ** 32 ? value : null;
  };

  const read = (text) => {
    const key = number(text);
    if (text === "") light([], [], atRest);
    else if (key === null) light([], [], "A key is a number below 4,294,967,296, in decimal or behind 0x.");
    else seek(key);
  };

  const chooseNode = (id) => {
    light([id], nodes[id][4], byId("n" + id).title, id);
  };

  const choosePage = (page) => {
    const here = (nodes || []).flatMap((node, id) => (node[4].includes(page) ? [id] : []));
    const words = byId("p" + page).title + (here.length ? "; holds " + list("node", here) : "");
    light(here, [page], words, here.length === 1 ? here[0] : null);
  };

  // One stop of the tab key for many cells, among which the arrows move.
  const rove = (cells, choose, next) => {
    const numberOf = (cell) => Number(cell.id.slice(1));
    const go = (cell) => {
      cells.forEach((other) => (other.tabIndex = other === cell ? 0 : -1));
      cell.focus();
    };
    cells.forEach((cell, place) => {
      cell.tabIndex = place === 0 ? 0 : -1;
      cell.setAttribute("role", "button");
      cell.setAttribute("aria-label", cell.title);
      cell.addEventListener("focus", () => choose(numberOf(cell)));
      cell.addEventListener("click", () => go(cell));
      cell.addEventListener("keydown", (event) => {
        const target = next(event.key, place, numberOf(cell));
        if (!target) return;
        event.preventDefault();
        go(target);
      });
    });
  };

  const pages = [...document.querySelectorAll(".block b")];
  const pageSteps = { ArrowLeft: -1, ArrowRight: 1, ArrowUp: -32, ArrowDown: 32 };
  rove(pages, choosePage, (key, place) => pages[place + (pageSteps[key] || NaN)]);

  if (nodes) {
    const cells = [...document.querySelectorAll(".tree button")];
    const above = [];
    nodes.forEach(([leaf, , pointers, link], id) => {
      if (!leaf) [...pointers, link].forEach((child) => (above[child] = id));
    });
    rove(cells, chooseNode, (key, place, id) => {
      if (key === "ArrowUp") return byId("n" + above[id]);
      if (key === "ArrowDown") return nodes[id][0] ? null : byId("n" + (nodes[id][2][0] ?? nodes[id][3]));
      return cells[place + ({ ArrowLeft: -1, ArrowRight: 1 }[key] || NaN)];
    });
    const fromAddress = () => {
      const key = new URLSearchParams(location.hash.slice(1)).get("key");
      if (key === null) return;
      input.value = key;
      read(key.trim());
    };
    input.addEventListener("input", () => {
      const text = input.value.trim();
      history.replaceState(null, "", text ? "#key=" + encodeURIComponent(text) : location.pathname);
      read(text);
    });
    input.form.addEventListener("submit", (event) => event.preventDefault());
    addEventListener("hashchange", fromAddress);
    fromAddress();
  }
  addEventListener("keydown", (event) => {
    if (event.key !== "Escape") return;
    if (input) input.value = "";
    light([], [], atRest);
    (input || document.activeElement).focus();
  });
})();
