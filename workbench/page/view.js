// A picture that can be made larger and smaller, moved and fitted into its frame.

const ZOOM = { step: 1.25, least: 0.1, most: 4 };

// The buttons above a picture, and what wheel, keys and dragging do.
function viewer(scroll, svg) {
  const natural = { width: svg.width.baseVal.value, height: svg.height.baseVal.value };
  const scale = () => svg.getBoundingClientRect().width / natural.width;
  const zoom = (to, x = scroll.clientWidth / 2, y = scroll.clientHeight / 2) => {
    const was = scale(), next = Math.min(ZOOM.most, Math.max(ZOOM.least, to));
    const [left, top] = [scroll.scrollLeft + x, scroll.scrollTop + y];
    svg.classList.add("zoomed");
    svg.style.setProperty("--zoom", next);
    scroll.scrollLeft = left * next / was - x;
    scroll.scrollTop = top * next / was - y;
  };
  const fit = () => {
    const tall = Math.max(200, 0.86 * window.innerHeight);
    zoom(Math.min(1, scroll.clientWidth / natural.width, tall / natural.height));
  };
  const actions = { "+": () => zoom(scale() * ZOOM.step), "−": () => zoom(scale() / ZOOM.step), fit, "1:1": () => zoom(1) };
  const keys = { "+": "+", "=": "+", "-": "−", "0": "1:1", f: "fit" };
  scroll.addEventListener("wheel", event => {
    if (!event.ctrlKey && !event.metaKey) return;
    event.preventDefault();
    const frame = scroll.getBoundingClientRect();
    zoom(scale() * (event.deltaY < 0 ? ZOOM.step : 1 / ZOOM.step), event.clientX - frame.left, event.clientY - frame.top);
  }, { passive: false });
  scroll.addEventListener("keydown", event => {
    if (keys[event.key] && !event.ctrlKey && !event.metaKey) actions[keys[event.key]]();
  });
  draggable(scroll);
  return html("span", { class: "tools" }, ...Object.entries(actions).map(([name, action]) => {
    const button = html("button", { type: "button", title: TOOLS[name] }, name);
    button.addEventListener("click", action);
    return button;
  }));
}

const TOOLS = { "+": "larger (+)", "−": "smaller (-)", fit: "all of it (f)", "1:1": "in its own size (0)" };

// Dragging moves the picture; a click that ends a drag follows no link. The window is listened to only while a drag lasts, so that
// a picture which is replaced leaves nothing behind.
function draggable(scroll) {
  let from = null, moved = false;
  const move = event => {
    moved = moved || Math.hypot(event.clientX - from.at[0], event.clientY - from.at[1]) > 4;
    if (moved) [scroll.scrollLeft, scroll.scrollTop] = [from.x - event.clientX, from.y - event.clientY];
  };
  const end = () => window.removeEventListener("pointermove", move);
  scroll.addEventListener("pointerdown", event => {
    if (event.button !== 0 || event.pointerType !== "mouse") return;
    const at = [event.clientX, event.clientY];
    [from, moved] = [{ x: at[0] + scroll.scrollLeft, y: at[1] + scroll.scrollTop, at }, false];
    window.addEventListener("pointermove", move);
    window.addEventListener("pointerup", end, { once: true });
  });
  scroll.addEventListener("click", event => { if (moved) event.preventDefault(); }, true);
  scroll.addEventListener("dragstart", event => event.preventDefault());
}
