/** Fills the page. */
'use strict';

const data = JSON.parse(byId('data').textContent);
byId('sentences').append(...data.sentences.map(text => element('li', { textContent: `${text}.` })));
new FlameGraph(data);
new TimeLine(data);
functionsTable(data);
importsTable(data);
new MemoryMap(data);
