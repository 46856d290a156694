// Files that a user gives to the page: by the chooser, or dropped anywhere; and how large they may
// be.
export const MOST_BYTES = 2 ** 30;
export const TOO_LARGE = {
  reason: "The file has more than 1,024 megabytes.",
  cure: "What to do: simplify it before, or cut it into tiles, as docs/WORLDS.md tells.",
};

const part = (name) => document.getElementById(name);
const MODELS = /\.(?:obj|ply|stl|vdpm|vdpz)$/i;

// Of files that were given together the model, and those beside it, as its materials and pictures.
function parted(files) {
  const all = [...files], model = all.find(({ name }) => MODELS.test(name)) ?? all[0];
  return [model, all.filter((file) => file !== model)];
}

// Calls `take` with a model's file, and the files that came with it.
export function watchFiles(take) {
  for (const name of ["choose", "open-file"]) part(name).onclick = () => part("file").click();
  part("file").onchange = () => {
    const [model, beside] = parted(part("file").files);
    part("file").value = ""; // so that the same one can be chosen again
    if (model) take(model, beside);
  };
  const over = (isOver) => document.body.classList.toggle("over", isOver);
  addEventListener("dragover", (event) => {
    event.preventDefault();
    over(true);
  });
  addEventListener("dragleave", ({ relatedTarget }) => {
    if (relatedTarget === null) over(false);
  });
  addEventListener("drop", (event) => {
    event.preventDefault();
    over(false);
    const [model, beside] = parted(event.dataTransfer.files);
    if (model) take(model, beside);
  });
}
