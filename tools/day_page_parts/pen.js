// Two pens with the same strokes: one draws on a canvas, the other writes SVG.

class CanvasPen {
  constructor(canvas) {
    this.canvas = canvas;
    this.context = canvas.getContext("2d");
    this.font = getComputedStyle(document.body).fontFamily;
    this.hatches = new Map();
  }

  // Begins a drawing of so many pixels.
  begin(width, height) {
    const ratio = window.devicePixelRatio || 1;
    const [w, h] = [Math.round(width * ratio), Math.round(height * ratio)];
    if (this.canvas.width !== w || this.canvas.height !== h) {
      this.canvas.width = w;
      this.canvas.height = h;
      this.canvas.style.width = `${width}px`;
      this.canvas.style.height = `${height}px`;
    }
    this.context.setTransform(ratio, 0, 0, ratio, 0, 0);
    this.context.clearRect(0, 0, width, height);
  }

  clip(x, y, width, height) {
    this.context.save();
    this.context.beginPath();
    this.context.rect(x, y, width, height);
    this.context.clip();
  }

  unclip() {
    this.context.restore();
  }

  rect(x, y, width, height, how) {
    this.context.beginPath();
    this.context.rect(x, y, width, height);
    this.paint(how);
  }

  line(points, how) {
    this.context.beginPath();
    points.forEach(([x, y], k) => (k ? this.context.lineTo(x, y) : this.context.moveTo(x, y)));
    if (how.closed) this.context.closePath();
    this.paint(how);
  }

  circle(x, y, radius, how) {
    this.context.beginPath();
    this.context.arc(x, y, radius, 0, 2 * Math.PI);
    this.paint(how);
  }

  paint(how) {
    const { context } = this;
    context.globalAlpha = how.alpha === undefined ? 1 : how.alpha;
    if (how.fill) {
      context.fillStyle = how.hatched ? this.hatch(how.fill) : how.fill;
      context.fill();
    }
    if (how.stroke) {
      context.strokeStyle = how.stroke;
      context.lineWidth = how.width || 1;
      context.lineCap = how.cap || "round";
      context.lineJoin = "round";
      context.setLineDash(how.dash || []);
      context.stroke();
    }
    context.globalAlpha = 1;
  }

  hatch(colour) {
    if (!this.hatches.has(colour)) {
      const tile = document.createElement("canvas");
      tile.width = tile.height = 6;
      const context = tile.getContext("2d");
      context.strokeStyle = colour;
      context.lineWidth = 2;
      for (const shift of [-6, 0, 6]) {
        context.beginPath();
        context.moveTo(shift, 6);
        context.lineTo(shift + 6, 0);
        context.stroke();
      }
      this.hatches.set(colour, this.context.createPattern(tile, "repeat"));
    }
    return this.hatches.get(colour);
  }

  text(x, y, text, how) {
    const { context } = this;
    context.font = `${how.bold ? "600 " : ""}${how.size || 11}px ${this.font}`;
    context.textAlign = how.align || "left";
    context.textBaseline = "middle";
    if (how.halo) {
      context.strokeStyle = how.halo;
      context.lineWidth = 3;
      context.setLineDash([]);
      context.strokeText(text, x, y);
    }
    context.fillStyle = how.fill;
    context.fillText(text, x, y);
  }

  width(text, size = 11) {
    this.context.font = `${size}px ${this.font}`;
    return this.context.measureText(text).width;
  }
}

// Writes what it draws as SVG: for print, and for a picture to keep.
class SvgPen {
  constructor(measure) {
    this.measure = measure;
    this.parts = [];
    this.hatches = new Map();
    this.clips = 0;
  }

  clip(x, y, width, height) {
    const id = `${SvgPen.mark}c${this.clips}`;
    this.clips += 1;
    this.parts.push(`<clipPath id="${id}"><rect ${place(x, y, width, height)}/></clipPath><g clip-path="url(#${id})">`);
  }

  unclip() {
    this.parts.push("</g>");
  }

  rect(x, y, width, height, how) {
    this.parts.push(`<rect ${place(x, y, width, height)}${this.look(how)}/>`);
  }

  line(points, how) {
    const list = points.map(([x, y]) => `${short(x)},${short(y)}`).join(" ");
    this.parts.push(`<${how.closed ? "polygon" : "polyline"} points="${list}"${this.look(how)}/>`);
  }

  circle(x, y, radius, how) {
    this.parts.push(`<circle cx="${short(x)}" cy="${short(y)}" r="${short(radius)}"${this.look(how)}/>`);
  }

  look(how) {
    let look = ` fill="${how.fill ? (how.hatched ? this.hatch(how.fill) : how.fill) : "none"}"`;
    if (how.stroke) look += ` stroke="${how.stroke}" stroke-width="${how.width || 1}" stroke-linecap="${how.cap || "round"}" stroke-linejoin="round"`;
    if (how.stroke && how.dash) look += ` stroke-dasharray="${how.dash.join(" ")}"`;
    return how.alpha === undefined ? look : `${look} opacity="${how.alpha}"`;
  }

  hatch(colour) {
    if (!this.hatches.has(colour)) this.hatches.set(colour, `${SvgPen.mark}h${this.hatches.size}`);
    return `url(#${this.hatches.get(colour)})`;
  }

  text(x, y, text, how) {
    const size = how.size || 11;
    const anchor = { center: "middle", right: "end" }[how.align] || "start";
    const halo = how.halo ? ` stroke="${how.halo}" stroke-width="3" paint-order="stroke"` : "";
    this.parts.push(
      `<text x="${short(x)}" y="${short(y + 0.35 * size)}" font-size="${size}" text-anchor="${anchor}" fill="${how.fill}"${halo}${how.bold ? ' font-weight="600"' : ""}>${escaped(text)}</text>`,
    );
  }

  width(text, size = 11) {
    return this.measure.width(text, size);
  }

  // The whole picture, of so many pixels.
  finish(width, height, paper) {
    const hatches = [...this.hatches].map(
      ([colour, id]) =>
        `<pattern id="${id}" width="6" height="6" patternUnits="userSpaceOnUse"><path d="M-1 1L1 -1M0 6L6 0M5 7L7 5" stroke="${colour}" stroke-width="2"/></pattern>`,
    );
    return (
      `<svg xmlns="http://www.w3.org/2000/svg" viewBox="0 0 ${width} ${height}" width="${width}" height="${height}" font-family="system-ui, sans-serif">` +
      `<defs>${hatches.join("")}</defs><rect width="${width}" height="${height}" fill="${paper}"/>${this.parts.join("")}</svg>\n`
    );
  }
}

// Distinguishes the ids of several pictures on one page.
SvgPen.mark = "d";

function short(number) {
  return String(Math.round(10 * number) / 10);
}

function place(x, y, width, height) {
  return `x="${short(x)}" y="${short(y)}" width="${short(width)}" height="${short(height)}"`;
}

function escaped(text) {
  return text.replace(/[&<>"']/g, (character) => `&#${character.charCodeAt(0)};`);
}
