// The page of desk-web: it tells the server what the mouse, the keys and the time do, and shows the screen that comes back.
"use strict";

const COMMAND = 256, SHIFT = 512, CAPS_LOCK = 1024, OPTION = 2048;
// The milliseconds between two times at which is told that time has passed, while the button is down; and of how many of these
// times one is told while something blinks.
const PERIOD = 50, BEATS = 3;
// A pixel is a square of this many pixels of the display at most, and the line below has this much room.
const LARGEST = 4, LINE = 40;
// The keys that stay those of the browser.
const BROWSERS_OWN = /^F([1-46-9]|1[0-2])$/;

const canvas = document.getElementById("screen"), pen = canvas.getContext("2d");
const said = document.getElementById("status"), place = document.getElementById("place");
const queue = [];
let seen = 0, isWaiting = false, isDown = false, blinks = false, beats = 0, mouse = [0, 0];
// What is shown of the desk; and how many of its pixels the side of a square has that is one pixel of the canvas.
let desk = { width: 1, height: 1, stride: 1, bytes: [0] }, side = 1;

// Each pixel is a square of whole pixels of the display, the largest for which there is room. Where the page is too narrow for
// all of them, the pixels of a square are one pixel of the display.
function fit() {
  const ratio = window.devicePixelRatio, room = window.innerWidth * ratio;
  const down = Math.floor((window.innerHeight - LINE) * ratio / desk.height);
  const scale = Math.max(1, Math.min(LARGEST, Math.floor(room / desk.width), down));
  side = Math.max(1, Math.ceil(desk.width / room));
  [canvas.width, canvas.height] = [Math.ceil(desk.width / side), Math.ceil(desk.height / side)];
  canvas.style.width = `${canvas.width * scale / ratio}px`;
  canvas.style.height = `${canvas.height * scale / ratio}px`;
  paint();
}

// How light a square is, from 0 to 255: the mean of those of its pixels that lie on the screen.
function lightOf(left, top) {
  const right = Math.min(left + side, desk.width), count = (right - left) * (Math.min(top + side, desk.height) - top);
  let black = 0;
  for (let at = 0; at < count; at++) {
    const h = left + at % (right - left), v = top + Math.floor(at / (right - left));
    black += desk.bytes[v * desk.stride + (h >> 3)] >> (7 - (h & 7)) & 1;
  }
  return Math.round(255 * (count - black) / count);
}

function paint() {
  const image = pen.createImageData(canvas.width, canvas.height);
  for (let at = 0; at < canvas.width * canvas.height; at++) {
    const h = at % canvas.width, v = (at - h) / canvas.width;
    image.data.fill(lightOf(h * side, v * side), 4 * at, 4 * at + 3);
    image.data[4 * at + 3] = 255;
  }
  pen.putImageData(image, 0, 0);
}

// The screen comes as its rows, eight pixels in a byte, the leftmost in the high bit, 1 for black.
function draw(width, height, text) {
  desk = { width, height, stride: (width + 7) >> 3, bytes: Uint8Array.from(atob(text), it => it.charCodeAt(0)) };
  fit();
}

function show(answer) {
  if (answer.screen !== undefined) {
    draw(answer.width, answer.height, answer.screen);
  }
  seen = answer.version;
  blinks = answer.blinks === true;
  said.textContent = answer.status;
}

// Sends what waits, in one message at a time, so that everything is told in its order.
async function send() {
  if (isWaiting || queue.length === 0) {
    return;
  }
  isWaiting = true;
  try {
    const body = JSON.stringify({ seen, events: queue.splice(0, 200) });
    const answer = await fetch("events", { method: "POST", headers: { "Content-Type": "application/json" }, body });
    if (!answer.ok) {
      throw new Error(await answer.text());
    }
    show(await answer.json());
  } catch (error) {
    said.textContent = `desk-web does not answer: ${error.message}`;
  }
  isWaiting = false;
  send();
}

// A move takes the place of one that waits.
function tell(...event) {
  if (event[0] === "move" && queue.length && queue[queue.length - 1][0] === "move") {
    queue.pop();
  }
  queue.push(event);
  send();
}

// The pixel of the desk in the middle of the square that lies so far from a side of the canvas, which has this length.
function along(offset, length, squares, pixels) {
  const square = Math.floor(offset * squares / length), middle = square * side + (side >> 1);
  return square < squares ? Math.min(middle, pixels - 1) : middle;
}

// The point of the desk's screen at which the mouse is.
function at(event) {
  const box = canvas.getBoundingClientRect();
  const h = along(event.clientX - box.left, box.width, canvas.width, desk.width);
  const v = along(event.clientY - box.top, box.height, canvas.height, desk.height);
  mouse = [h, v];
  place.textContent = `${h} ${v}`;
  return mouse;
}

function modifiers(event) {
  const command = event.ctrlKey || event.metaKey ? COMMAND : 0, shift = event.shiftKey ? SHIFT : 0;
  return command + shift + (event.altKey ? OPTION : 0) + (event.getModifierState("CapsLock") ? CAPS_LOCK : 0);
}

function key(what, event) {
  if (event.isComposing || BROWSERS_OWN.test(event.key)) {
    return;
  }
  event.preventDefault();
  if (event.key !== "F5") {
    tell(what, event.key, event.location === KeyboardEvent.DOM_KEY_LOCATION_NUMPAD, ...mouse, modifiers(event));
  } else if (what === "keydown") {
    tell("image");
  }
}

function release(event) {
  if (isDown) {
    isDown = false;
    tell("up", ...at(event), modifiers(event));
  }
}

canvas.addEventListener("pointerdown", event => {
  if (event.button === 0 && !isDown) {
    isDown = true;
    canvas.setPointerCapture(event.pointerId);
    tell("down", ...at(event), modifiers(event));
  }
});
// Where the button is down the mouse may be beside the screen.
window.addEventListener("pointermove", event => {
  if (isDown) {
    tell("move", ...at(event));
  } else if (event.target === canvas) {
    at(event);
  }
});
window.addEventListener("pointerup", event => {
  if (event.button === 0) {
    release(event);
  }
});
window.addEventListener("pointercancel", release);
canvas.addEventListener("contextmenu", event => event.preventDefault());
document.addEventListener("keydown", event => key("keydown", event));
document.addEventListener("keyup", event => key("keyup", event));
window.addEventListener("resize", fit);
window.setInterval(() => {
  beats = (beats + 1) % BEATS;
  if ((isDown || blinks && beats === 0) && !isWaiting) {
    tell("time");
  }
}, PERIOD);
tell("time");
