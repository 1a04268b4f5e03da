// What a page has: the module that judges, and the functions of its script.
import fs from "node:fs";

// The functions of these names, and a fresh instance of the module, or of the one in another file.
export async function pageOf(path, names, other) {
  const page = fs.readFileSync(path, "utf8"), within = tag => page.split(tag)[1].split("</script>")[0];
  // The script finds neither a page nor a worker here, so that it begins neither.
  const script = new Function(`${within("<script>")}\nreturn { freshModule, ${names.join(", ")} };`)();
  const module = other ? fs.readFileSync(other) : Buffer.from(within('<script id="module" type="text/plain">'), "base64");
  return { ...script, of: await script.freshModule(module) };
}
