// How hollow the mesh is is found by the worker once it is asked for, and told then with all that
// comes later.
export async function shadeHollows(viewer) {
  if (viewer.knowsHollows) return;
  viewer.knowsHollows = true;
  try {
    const { patch } = await viewer.work.ask({ task: "hollow" });
    viewer.scene.renderer.change("front", patch);
    viewer.change({ inputState: "unasked" });
    if (viewer.set.beside) await viewer.showInput();
  } catch (fault) {
    viewer.fail(fault);
  }
}
