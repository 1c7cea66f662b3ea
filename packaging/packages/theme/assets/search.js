// A search over pages that are read by HTTP or opened as files: its index is a script, which is loaded once it is asked for.
(() => {
  const MOST = 30, TEASER = 160;
  const top = new URL(`${document.currentScript.dataset.top}/`, location.href);
  const field = document.querySelector(".md-search__input");
  const list = document.querySelector(".md-search-result__list");
  const meta = document.querySelector(".md-search-result__meta");
  const shown = document.getElementById("__search");

  const tokens = (text) => text.toLowerCase().split(/[^\p{L}\p{N}_-]+/u).filter(Boolean);

  // How well a section fits, 0 if it lacks a word. A title says more than a text, a whole word more than its beginning.
  const score = ({title, words, weight}, wanted) => weight * wanted.reduce((sum, word) => {
    const begins = (it) => it.startsWith(word);
    const times = words.filter((it) => it === word).length;
    const found = (title.includes(word) ? 8 : title.some(begins) ? 4 : 0) + (times ? 1 + Math.min(times, 6) : words.some(begins) ? 0.5 : 0);
    return sum && found ? sum + found : 0;
  }, 1);

  const element = (name, kind, text = "") => Object.assign(document.createElement(name), {className: kind, textContent: text});

  const item = ({place, name, text}, words) => {
    const at = Math.max(0, ...words.map((word) => text.toLowerCase().indexOf(word) - TEASER / 4));
    const article = element("article", "md-search-result__article md-typeset");
    article.append(element("h1", "md-search-result__title", name));
    article.append(element("p", "md-search-result__teaser", `${at ? ".." : ""}${text.slice(at, at + TEASER)}`));
    const link = Object.assign(element("a", "md-search-result__link"), {href: new URL(place, top).href});
    link.append(article);
    const entry = element("li", "md-search-result__item");
    entry.append(link);
    return entry;
  };

  const show = () => {
    const words = tokens(field.value);
    if (!window.searchIndex || !words.length) {
      list.replaceChildren();
      meta.textContent = "Type to start searching";
      return;
    }
    const scored = window.searchIndex.map((entry) => ({entry, points: score(entry, words)})).filter(({points}) => points);
    scored.sort((one, other) => one.entry.last - other.entry.last || other.points - one.points);
    meta.textContent = scored.length ? `${scored.length} found` : "Nothing found";
    list.replaceChildren(...scored.slice(0, MOST).map(({entry}) => item(entry, words)));
  };

  const begin = () => {
    shown.checked = true;
    if (window.searchIndex || document.getElementById("search-index")) return;
    const script = Object.assign(document.createElement("script"), {id: "search-index", src: new URL("search/index.js", top).href});
    script.addEventListener("load", () => {
      for (const entry of window.searchIndex) Object.assign(entry, {title: tokens(entry.name), words: tokens(entry.text)});
      show();
    });
    document.head.append(script);
  };

  field.addEventListener("focus", begin);
  field.addEventListener("input", () => { begin(); show(); });
  field.form.addEventListener("reset", () => setTimeout(show));
  field.form.addEventListener("submit", (event) => {
    event.preventDefault();
    list.querySelector("a")?.click();
  });
  addEventListener("keydown", (event) => {
    if (event.key === "Escape") shown.checked = false;
    if (event.key === "/" && event.target === document.body) { event.preventDefault(); field.focus(); }
  });
  shown.addEventListener("change", () => shown.checked && field.focus());
})();
