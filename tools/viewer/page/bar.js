// The bar's menu, and the drawer of what isn't in the bar. Both are shut until one opens them.
const part = (name) => document.getElementById(name);

export function toggle() {
  const isShown = part("drawer").hidden;
  part("drawer").hidden = !isShown;
  part("unhide").ariaExpanded = String(isShown);
  document.body.classList.toggle("drawer", isShown);
}

// Shuts the menu once something of it was chosen, or where one goes on elsewhere.
export function watchMenu() {
  const menu = part("saves"), shut = () => { menu.open = false; };
  menu.addEventListener("click", ({ target }) => { if (target.matches("button")) shut(); });
  menu.addEventListener("focusout", ({ relatedTarget }) => {
    if (relatedTarget !== null && !menu.contains(relatedTarget)) shut();
  });
  menu.addEventListener("keydown", ({ key }) => {
    if (key !== "Escape") return;
    shut();
    menu.querySelector("summary").focus();
  });
  part("picture").addEventListener("pointerdown", shut);
}
