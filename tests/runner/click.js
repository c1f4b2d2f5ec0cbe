const task = document.querySelector('#graph .whole .task[data-name="%s"]');
task.dispatchEvent(new MouseEvent('click', {bubbles: true}));
return [document.querySelector('#detail').textContent, document.querySelectorAll('#graph .whole .wire.near').length, task.classList.contains('chosen')];