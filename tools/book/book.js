document.documentElement.classList.add('js');
const all = s => document.querySelectorAll(s), box = document.querySelector('.tools input');
if (box) box.oninput = () => {
  const t = box.value.toLowerCase();
  for (const d of all('.defs > .def')) d.hidden = !d.dataset.n.includes(t);
  for (const h of all('.defs > h3')) h.hidden = t != '';
};
for (const b of all('.tools button')) b.onclick = () => { for (const d of all(b.dataset.of)) d.open = b.dataset.open == '1'; };
const show = () => { for (let e = document.getElementById(location.hash.slice(1)); e; e = e.parentElement) if (e.tagName == 'DETAILS') e.open = true; };
addEventListener('hashchange', show); show();
