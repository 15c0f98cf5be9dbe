// Puts the page together.

// A day out of its data, with its map.
function dayOf(data) {
  const day = new Day(data);
  day.map = readMap(day);
  return day;
}

function start() {
  const day = dayOf(JSON.parse(byId("day").textContent));
  const clock = new Clock(day.data.start);
  const view = new View(day);
  const parts = { address: new Address(view), head: new Head(view, clock) };
  parts.legend = new Legend(view);
  parts.flights = new FlightList(view, clock);
  parts.commands = new CommandList(view, clock);
  parts.timeline = new Timeline(view, clock);
  parts.map = day.map ? new AirportMap(view, clock) : null;
  parts.details = new Details(view, clock);
  parts.player = new Player(view, clock, parts.timeline);
  parts.paper = new Paper(view, clock, parts.flights, parts.timeline.base);
  parts.tools = new Tools(view, parts);
  parts.keys = new Keys(view, parts);
  parts.timeline.follow();
  if (view.filter.mark !== "all") parts.timeline.showFiltered();
  if (view.selected) parts.timeline.showSelected();
  else parts.timeline.scrollToTime();
  window.dayPage = { day, view, clock, ...parts, opened: performance.now() };
}

start();
