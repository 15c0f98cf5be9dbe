// The rows of the timeline: a flight or party each, several flights in a row, a stand each, or a segment each.

const ROW_KINDS = ["flights", "packed", "stands", "segments"];

// The rows of what is shown. The room says how many pixels a second has, and how wide a text is.
function timelineRows(view, room) {
  const make = { flights: flightRows, packed: packedRows, stands: standRows, segments: segmentRows };
  return make[view.rows](view, room);
}

function flightRows(view) {
  const shown = (stay) => view.plan === null || stay.inForceAfter(view.plan);
  const rows = view.shownHolders().map((holder) => flightRow(holder, holder.stays.filter(shown)));
  return rows.filter((row) => view.plan === null || row.stays.length);
}

// The row of a flight or a party, and the seconds in which it has something.
function flightRow(holder, stays) {
  const begins = stays.map((stay) => stay.begin).concat(holder.notes.map((note) => note.second));
  const end = Math.max(...begins, ...stays.map((stay) => stay.last));
  return { kind: "flight", label: holder.name, holder, stays, notes: holder.notes, begin: Math.min(...begins), end, members: [] };
}

// Flights share rows as far as there is room for them and for their names.
function packedRows(view, room) {
  const rows = [];
  for (const member of flightRows(view)) {
    const needed = (member.end - member.begin) * room.scale + room.width(member.label) + 14;
    const begin = member.begin * room.scale;
    let row = rows.find((one) => one.free <= begin);
    if (!row) {
      row = { kind: "packed", label: "", members: [], stays: [], begin: member.begin, end: member.end };
      rows.push(row);
    }
    row.free = begin + needed;
    row.end = Math.max(row.end, member.end);
    row.members.push(member);
    row.stays.push(...member.stays);
  }
  return rows;
}

// A row for each stand, and one more for each that stands there at the same time. Stands without anybody are free.
function standRows(view) {
  const { day } = view;
  const passing = new Set(view.shownHolders().map((holder) => holder.name));
  const everybody = passing.size === day.holders.size;
  const uses = standUses(view);
  const rows = [];
  for (const stand of day.stands) {
    const all = uses.get(stand) || [];
    const shown = all.filter((use) => use.names.some((name) => passing.has(name)));
    if (!shown.length && !everybody) continue;
    const overlaps = overlapsOf(all);
    const lanes = Math.max(1, ...shown.map((use) => use.lane + 1));
    for (let lane = 0; lane < lanes; lane += 1) {
      const label = lane ? `${day.nodeName(stand)} (${lane + 1})` : day.nodeName(stand);
      const here = shown.filter((use) => use.lane === lane);
      const twice = joined(overlaps.filter((overlap) => here.some((use) => overlap.uses.includes(use))));
      rows.push({ kind: "stand", label, stand, uses: here, overlaps, twice, members: [], begin: 0, end: day.horizon });
    }
  }
  return rows;
}

function segmentRows(view) {
  const { day } = view;
  const passing = new Set(view.shownHolders());
  const shown = (stay) => view.plan === null || stay.inForceAfter(view.plan);
  const wanted = ({ stay }) => shown(stay) && passing.has(day.holders.get(stay.name));
  const rows = day.bySegment.map((items, segment) => ({ kind: "segment", label: day.segments[segment][0], segment, items: items.filter(wanted), members: [] }));
  return rows.filter((row) => row.items.length);
}

// The part of a row that is of a flight: the row itself or one of its members; for a stand, one of its uses. Otherwise undefined.
function partOfRow(row, name) {
  if (row.holder) return row.holder.name === name ? row : undefined;
  if (row.kind === "stand") {
    const use = row.uses.find((one) => one.names.includes(name));
    return use && { begin: use.from, end: use.until };
  }
  return row.members.find((member) => member.holder.name === name);
}

// The versions in a row.
function staysOfRow(row) {
  if (row.kind === "segment") return row.items.map((item) => item.stay);
  if (row.kind === "stand") return row.uses.flatMap((use) => [use.arrival, use.departure].filter(Boolean));
  return row.stays;
}
