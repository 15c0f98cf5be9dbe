// Elements of the page. All texts are set as text, so nothing that a file says is ever read as markup.

function byId(id) {
  return document.getElementById(id);
}

// An element with attributes, listeners (keys that begin with "on") and children; a string is a child of text.
function element(tag, attributes = {}, ...children) {
  const made = document.createElement(tag);
  for (const [key, value] of Object.entries(attributes)) {
    if (value === null || value === false) continue;
    if (key.startsWith("on")) made.addEventListener(key.slice(2), value);
    else made.setAttribute(key, value === true ? "" : value);
  }
  made.append(...children.filter((child) => child !== null));
  return made;
}

function replaceChildren(parent, ...children) {
  parent.replaceChildren(...children.filter((child) => child !== null));
}

// Scrolls a list, and not the page, so that an item of it is seen.
function keepInSight(list, item) {
  const [box, place] = [list.getBoundingClientRect(), item.getBoundingClientRect()];
  if (place.top < box.top) list.scrollTop -= box.top - place.top;
  else if (place.bottom > box.bottom) list.scrollTop += place.bottom - box.bottom;
}

// The colours of the page as they stand now, by the names that the style gives them.
function palette() {
  const style = getComputedStyle(document.documentElement);
  const names = ["paper", "raised", "ink", "faint", "line", "arrival", "departure", "filed", "work", "wait", "stand", "runway", "refused", "no-route", "cursor", "lit"];
  return Object.fromEntries(names.map((name) => [name, style.getPropertyValue(`--${name}`).trim()]));
}

// The tone of a note: of an answer that is not what was asked for.
function noteColour(colours, tone) {
  return tone === "refused" ? colours.refused : colours["no-route"];
}
