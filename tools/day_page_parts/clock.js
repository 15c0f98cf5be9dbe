// Tells seconds of the day: as they stand in the files, or as civil times where the start is known.

class Clock {
  constructor(start) {
    this.start = start ? Date.parse(start.at) : null;
    this.offset = start ? start.offset : "";
    this.date = start ? start.at.slice(0, 10) : "";
  }

  get civil() {
    return this.start !== null;
  }

  text(second) {
    const whole = Math.floor(second);
    if (!this.civil) return String(whole);
    const [date, time] = this.moment(whole);
    return date === this.date ? time : `${date} ${time}`;
  }

  // The date and the time of day of a second.
  moment(second) {
    const text = new Date(this.start + 1000 * second).toISOString();
    return [text.slice(0, 10), text.slice(11, 19)];
  }

  // A short text for a mark on an axis whose marks are so many seconds apart.
  mark(second, apart) {
    if (!this.civil) return String(second);
    const time = this.moment(second)[1];
    return apart < 60 ? time : time.slice(0, 5);
  }

  // The distance of the marks on an axis on which a second has so many pixels.
  apart(pixels) {
    const steps = this.civil
      ? [1, 2, 5, 10, 15, 30, 60, 120, 300, 600, 900, 1800, 3600, 7200, 10800, 21600, 43200, 86400]
      : [1, 2, 5, 10, 20, 50, 100, 200, 500, 1000, 2000, 5000, 10000, 20000, 50000, 100000];
    return steps.find((step) => step * pixels >= 64) || steps[steps.length - 1];
  }
}

// A number of seconds as a span of time: 45 s, 2 min 5 s, 1 h 3 min.
function span(seconds) {
  if (seconds < 60) return `${seconds} s`;
  const [hours, minutes, rest] = [Math.floor(seconds / 3600), Math.floor(seconds / 60) % 60, seconds % 60];
  if (hours) return minutes ? `${hours} h ${minutes} min` : `${hours} h`;
  return rest ? `${minutes} min ${rest} s` : `${minutes} min`;
}
