// On a narrow window the list of pages slides in, and a wide table scrolls by itself.
'use strict';

for (const button of document.querySelectorAll('[data-toggle="wy-nav-top"]')) {
  button.addEventListener('click', () => {
    for (const moved of document.querySelectorAll('[data-toggle="wy-nav-shift"], [data-toggle="rst-versions"]')) {
      moved.classList.toggle('shift');
    }
  });
}

const LONG = 60; // characters of a cell that is a sentence

for (const table of document.querySelectorAll('.rst-content table')) {
  table.classList.add('docutils');
  const holder = document.createElement('div');
  holder.className = 'wy-table-responsive';
  table.replaceWith(holder);
  holder.append(table);
  for (const cell of table.querySelectorAll('td')) {
    cell.classList.toggle('long', cell.textContent.length > LONG);
  }
}
