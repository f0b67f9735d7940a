// A slider under the picture of each volume: it moves through the slices, which lie side by side in one picture. The name of a slice is its place in the volume.

function slide(card, { sheet, places, row, width, height, depth }) {
  const picture = card.querySelector(".picture");
  const stage = element("canvas", { class: "slice", width, height, role: "img", "aria-label": "a slice with the borders of its objects" });
  const told = element("span", { class: "quiet" });
  const start = places.findIndex((place) => place >= Math.floor(depth / 2));
  const slider = element("input", { type: "range", min: 0, max: places.length - 1, value: start, "aria-label": "which slice", class: "slices" });
  const image = new Image();
  const draw = () => {
    const k = Number(slider.value);
    told.textContent = `z = ${places[k]} of 0 to ${depth - 1}`;
    stage.getContext("2d").drawImage(image, (k % row) * width, Math.floor(k / row) * height, width, height, 0, 0, width, height);
  };
  image.addEventListener("load", () => {
    picture.classList.add("sliced");
    picture.append(stage);
    picture.after(element("p", { class: "sliding" }, slider, told));
    draw();
  });
  for (const event of ["click", "keydown", "pointerdown"]) slider.addEventListener(event, (one) => one.stopPropagation());
  slider.addEventListener("input", draw);
  image.src = sheet;
}

for (const card of document.querySelectorAll(".card")) {
  const { slices } = images[Number(card.dataset.image)];
  if (slices) slide(card, slices);
}
