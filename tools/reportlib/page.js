
"use strict";
for (const element of document.querySelectorAll(".scripted")) {
  element.hidden = false;
}
{
  // The filter of the tree, which is hidden where no script runs.
  const rows = Array.from(document.querySelectorAll("#tree tbody tr"));
  const paths = rows.map((row) => row.cells[0].textContent.toLowerCase());
  const filter = document.getElementById("filter");
  const only = document.getElementById("only");
  const show = () => {
    const wanted = filter.value.toLowerCase();
    let count = 0;
    rows.forEach((row, at) => {
      row.hidden = !paths[at].includes(wanted) || Boolean(only?.checked && !row.classList.contains("differs"));
      count += row.hidden ? 0 : 1;
    });
    document.getElementById("filter-count").textContent = `${count} of ${rows.length} lines`;
  };
  filter.addEventListener("input", show);
  only?.addEventListener("change", show);
  show();
}
{
  // Arrow keys, Home and End lead from event to event; one of them at a time is reached by the tab key.
  const events = document.getElementById("events");
  const inList = (list, end) => list?.[end];
  const steps = {
    ArrowDown: (item) => item.nextElementSibling ?? inList(item.parentElement.nextElementSibling, "firstElementChild"),
    ArrowUp: (item) => item.previousElementSibling ??
      inList(item.parentElement.previousElementSibling, "lastElementChild"),
    Home: () => events.querySelector("li"),
    End: () => events.lastElementChild.lastElementChild,
  };
  const reach = (item) => {
    events.querySelector("li[tabindex='0']")?.setAttribute("tabindex", "-1");
    item.setAttribute("tabindex", "0");
  };
  events.addEventListener("keydown", (event) => {
    const item = event.target.closest("li");
    const isPlain = !event.altKey && !event.ctrlKey && !event.metaKey && !event.shiftKey;
    const next = item && isPlain && steps[event.key]?.(item);
    if (next?.matches("li")) {
      event.preventDefault();
      next.focus();
    }
  });
  events.addEventListener("focusin", (event) => {
    const item = event.target.closest("li");
    if (item) {
      reach(item);
    }
  });
}
