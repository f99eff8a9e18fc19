"use strict";
(function () {
  const table = document.querySelector("#overview table"), body = table.tBodies[0], rows = Array.from(body.rows);
  const texts = new Map(rows.map((row) => [row, row.textContent.toLowerCase()]));
  const search = document.querySelector(".search"), [text, only] = search.querySelectorAll("input");
  const output = search.querySelector("output"), order = new Intl.Collator("en", { numeric: true });

  function filter() {
    const words = text.value.toLowerCase().split(/\s+/);
    let shown = 0;
    for (const row of rows) {
      row.hidden = (only.checked && !row.querySelector(".found")) || !words.every((word) => texts.get(row).includes(word));
      shown += !row.hidden;
    }
    output.textContent = shown === rows.length ? "" : shown + " of " + rows.length;
  }

  function value(row, column) {
    return row.cells[column].textContent;
  }

  function compare(one, other, column) {
    const [a, b] = [value(one, column), value(other, column)];
    if (a === "" || b === "") return (a === "") - (b === "");
    const difference = a - b;
    return Number.isNaN(difference) ? order.compare(a, b) : difference;
  }

  function sort(head) {
    const column = head.cellIndex, down = head.getAttribute("aria-sort") === "ascending";
    for (const each of head.parentNode.cells) each.removeAttribute("aria-sort");
    head.setAttribute("aria-sort", down ? "descending" : "ascending");
    body.append(...rows.sort((one, other) => (down ? compare(other, one, column) : compare(one, other, column))));
  }

  for (const head of table.tHead.rows[0].cells) {
    const button = document.createElement("button");
    button.type = "button";
    button.textContent = head.textContent;
    head.replaceChildren(button);
    button.addEventListener("click", () => sort(head));
  }
  text.addEventListener("input", filter);
  only.addEventListener("change", filter);
  search.hidden = false;

  function reveal(hash) {
    const target = document.getElementById(hash.slice(1)), folded = target && target.closest("details");
    let frames = 6; // in which sections that are shown for the first time take their heights

    function scroll() {
      if (!frames-- || location.hash !== hash) return;
      target.scrollIntoView();
      requestAnimationFrame(scroll);
    }

    if (folded) folded.open = true;
    if (target) requestAnimationFrame(scroll);
  }

  function copy(button, digits) {
    const said = (word) => { button.textContent = word; };
    navigator.clipboard.writeText(digits.textContent).then(() => said("copied"), () => {
      getSelection().selectAllChildren(digits);
      said("selected: copy with Ctrl+C");
    });
  }

  function addButton(telegram) {
    const digits = telegram.open && telegram.querySelector(":scope > pre");
    if (!digits || telegram.querySelector("button")) return;
    const button = document.createElement("button");
    button.type = "button";
    button.textContent = "copy the digits";
    button.addEventListener("click", () => copy(button, digits));
    digits.before(button);
  }

  document.addEventListener("toggle", (event) => addButton(event.target), true);
  document.querySelectorAll(".group details[open]").forEach(addButton);
  document.addEventListener("click", (event) => {
    const link = event.target.closest("a");
    if (link) reveal(link.hash);
  });
  reveal(location.hash);
})();
