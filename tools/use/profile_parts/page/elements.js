/** Elements of the page. */
'use strict';

/** A new element with properties, attributes of its data set and contents. */
function element(name, properties = {}, contents = []) {
  const made = Object.assign(document.createElement(name), properties);
  made.append(...contents);
  return made;
}

const byId = id => document.getElementById(id);

/** A color's hue for a function, the same at all its places. */
const hueOf = index => (index * 47 + 200) % 360;
