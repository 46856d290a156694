// Says what went wrong, over the picture.
const part = (name) => document.getElementById(name);

// `again` is what its button does, and `label` what it says; without `again` there is no button.
export function showFault({ title, reason, cure = "", again = null, label = "" }) {
  part("fault-title").textContent = title;
  part("fault-reason").textContent = reason;
  part("fault-cure").textContent = cure;
  part("fault-cure").hidden = cure === "";
  part("again").hidden = again === null;
  if (label !== "") part("again").textContent = label;
  part("again").onclick = () => {
    part("fault").hidden = true;
    again();
  };
  part("fault").hidden = false;
}
