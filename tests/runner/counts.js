// What a page of tools/look.py has drawn, and what it says.
return {
  ready: document.documentElement.dataset.ready,
  title: document.querySelector('#title').textContent,
  facts: document.querySelector('#facts').textContent,
  tasks: document.querySelectorAll('#graph .whole .task rect').length,
  wires: document.querySelectorAll('#graph .whole .wire .line').length,
  uppers: document.querySelectorAll('#graph .whole .upper rect').length,
  memories: document.querySelectorAll('#graph .whole .memory rect').length,
  circle: document.querySelectorAll('#graph .whole .circle').length,
  lines: document.querySelectorAll('#code tr').length,
  slots: document.querySelectorAll('#floor .slot').length,
  chips: document.querySelectorAll('#floor .chip').length,
  report: document.querySelectorAll('#told tr').length - 1,
  told: document.querySelector('#told').textContent,
  bound: document.querySelector('#why').textContent,
  colours: (() => { const it = document.querySelector('#tracks canvas'), found = new Set(), data = it.getContext('2d').getImageData(0, 0, it.width, it.height).data;
    for (let at = 0; at < data.length; at += 4) found.add(data[at] << 16 | data[at + 1] << 8 | data[at + 2]); return found.size; })(),
}
