// Calls mbelaguy.wasm, as calls.c does the library:
//
//     node calls.mjs WASM answers FILE    makes stored calls again and prints what crates/replay prints of them;
//                                         then calls with a balance row that names no key, and feeds a month; last, on standard error,
//                                         how much stack a call took
//     node calls.mjs WASM time FILE       prints how long a call takes with the names and the pack of FILE, in nanoseconds
//
// All buffers lie in the module's memory, from __heap_base on; the answer goes to an address that comes before the other arguments.
import { readFileSync } from "node:fs";
import { dirname, join } from "node:path";

const MOST = [17408, 29696, 154624, 257024, 112640]; // bytes that a table is lent: those of crates/replay
const LONGEST = 393216; // bytes of a stored call and its answer
const AROUND = 64; // bytes before and behind a table, which no call may touch
const FILL = 165; // what all bytes are before a call
const FED = 3100; // transfers of a feed; the library takes 1,024 at a time, and counts 3,072 new rows
const LINES = FED + 2; // rows of its report
const UNFIT = "cut off, or too long for this program";

const [wasm, what, path] = process.argv.slice(2);
if (!["answers", "time"].includes(what) || !path) {
    console.error("usage: node calls.mjs WASM answers FILE, or node calls.mjs WASM time FILE");
    process.exit(2);
}
const library = new WebAssembly.Instance(new WebAssembly.Module(readFileSync(wasm))).exports;
const file = readFileSync(path);
const header = readFileSync(join(dirname(wasm), "mbelaguy.h"), "utf8");
const defined = (name) => Number(header.match(`#define MBELAGUY_${name} (\\d+)`)[1]);
const WIDTHS = ["MINT", "INVOCATION", "TRANSFER", "LEG", "NATIVE"].map((table) => defined(`${table}_ROW`));
const fail = (text) => {
    console.error(`calls: ${text}`);
    process.exitCode = 1;
};

// Where things are: the answer, names and pack, each table between bytes that are not lent; likewise a report, then the transfers for it.
const base = library.__heap_base.value;
const answerAt = (base + 15) & ~15;
const packAt = answerAt + 64;
let end = packAt + LONGEST;
const tablesAt = MOST.map((most) => (end += AROUND + most + AROUND) - AROUND - most);
const [TIGHT, WIDE] = [LINES * defined("REPORT_ROW") + 5, 3 * FED * defined("REPORT_ROW")];
const [reportAt, transfersAt] = [end + AROUND, end + AROUND + WIDE + AROUND];
end = transfersAt + FED * defined("TRANSFER_ROW");
const missing = end - library.memory.buffer.byteLength;
if (missing > 0) library.memory.grow(Math.ceil(missing / 65536));
const memory = new Uint8Array(library.memory.buffer);
const numbers = new Uint32Array(library.memory.buffer, answerAt, 9);

// An empty buffer is null, as C++ and Swift have it.
const from = (at, length) => [length ? at : 0, length];

function call(names, pack, lengths) {
    memory.set(names, packAt);
    memory.set(pack, packAt + names.length);
    const buffers = [from(packAt, names.length), from(packAt + names.length, pack.length), ...lengths.map((length, t) => from(tablesAt[t], length))];
    library.mbelaguy_route(answerAt, ...buffers.flat());
    return Array.from(numbers);
}

const all = (from, to, byte) => memory.subarray(from, to).every((each) => each === byte);

// The rows that suffice by the library, held to what the call answered. Of a call with other names than 88 bytes nothing follows.
function checkRoom(packStart, packLength, lengths, [number, place, ...counts]) {
    library.mbelaguy_room(answerAt, ...from(packStart, packLength));
    const [refused, where, ...enough] = Array.from(numbers);
    let right = number === 1 || (refused === number && where === place);
    if (number === 0) right = refused === 0 && enough.slice(0, 5).every((rows, t) => rows >= counts[t]);
    if (number === 8) right = refused === 0 && enough[place] > Math.floor(lengths[place] / WIDTHS[place]);
    if (!right) fail("other rows suffice than mbelaguy_room says");
}

// What a call differs in from what is stored of it.
function difference(record) {
    if (record.length < 28 || record.length > LONGEST) return UNFIT;
    const [names, pack, ...lengths] = Array.from({ length: 7 }, (_, k) => record.readUInt32LE(4 * k));
    if (lengths.some((length, t) => length > MOST[t]) || 28 + names + pack > record.length) return UNFIT;
    let stored = 28 + names + pack;
    lengths.forEach((length, t) => memory.fill(FILL, tablesAt[t] - AROUND, tablesAt[t] + length + AROUND));
    const answer = call(record.subarray(28, 28 + names), record.subarray(28 + names, stored), lengths);
    lengths.forEach((length, t) => {
        const [start, stop] = [tablesAt[t], tablesAt[t] + length];
        if (!all(start - AROUND, start, FILL) || !all(stop, stop + AROUND, FILL)) fail("bytes around a table were written");
    });
    checkRoom(packAt + names, pack, lengths, answer);
    if (stored + 36 > record.length || answer.some((number, k) => number !== record.readUInt32LE(stored + 4 * k))) return "other numbers";
    stored += 36;
    for (let t = 0; t < 5; t++) {
        const used = answer[2 + t] * WIDTHS[t];
        const rows = memory.subarray(tablesAt[t], tablesAt[t] + used);
        const fits = used <= lengths[t] && stored + used <= record.length;
        if (!fits || record.compare(rows, 0, used, stored, stored + used) !== 0 || !all(tablesAt[t] + used, tablesAt[t] + lengths[t], 0)) {
            return `another table ${t}`;
        }
        stored += used;
    }
    return null;
}

// What calls.c calls with: one key, and a balance row with a zero mint, whose account index is the key's, then the number of keys.
function checkBalances() {
    const balances = defined("KEY_ROW");
    const trailer = balances + defined("BALANCE_ROW");
    const [names, pack] = [Buffer.alloc(defined("NAMES_BYTES")), Buffer.alloc(trailer + defined("TRAILER_BYTES"))];
    [0, balances, trailer, trailer, trailer].forEach((start, section) => pack.writeUInt32LE(start, trailer + defined("TRAILER_STARTS") + 4 * section));
    pack.write("RTP1", trailer + defined("TRAILER_MARK"));
    for (const wanted of [[0, 0], [defined("REFUSED_BALANCES"), defined("SECTION_BALANCES")]]) {
        const answer = call(names, pack, [0, 0, 0, 0, 0]);
        library.mbelaguy_room(answerAt, packAt + names.length, pack.length);
        for (const told of [answer, numbers]) if (told[0] !== wanted[0] || told[1] !== wanted[1]) fail("another answer to a balance row");
        pack.writeUInt32LE(1, balances + defined("BALANCE_ACCOUNT"));
    }
}

// What calls.c feeds, and its report: each transfer is of the greatest amount with a fee of 1, of one mint, from an account of its own, the last
// account first, to one account behind them all.
function month() {
    const [report, transfers] = [Buffer.alloc(LINES * defined("REPORT_ROW")), Buffer.alloc(FED * defined("TRANSFER_ROW"))];
    const sum = (value, at) => {
        report.writeBigUInt64LE(BigInt.asUintN(64, value), at);
        report.writeBigUInt64LE(value >> 64n, at + 8);
    };
    const most = 2n ** 64n - 1n;
    for (let k = 0; k < LINES; k++) {
        const row = k * defined("REPORT_ROW");
        report.fill(3, row + defined("REPORT_MINT"), row + defined("REPORT_MINT") + 32);
        report[row + defined("REPORT_MINT_FLAG")] = 1;
        report[row + defined("REPORT_ACCOUNT_FLAG")] = Number(k > 0);
        report.writeUInt16BE(k, row + defined("REPORT_ACCOUNT"));
        if (k === 0) sum(BigInt(FED) * most, row + defined("REPORT_DEBITS"));
        else if (k <= FED) sum(most, row + defined("REPORT_DEBITS"));
        if (k === 0 || k > FED) {
            sum(BigInt(FED) * (most - 1n), row + defined("REPORT_CREDITS"));
            sum(BigInt(FED), row + defined("REPORT_FEES"));
        }
    }
    for (let k = 0; k < FED; k++) {
        const row = k * defined("TRANSFER_ROW");
        transfers.writeUInt16BE(FED - k, row + defined("TRANSFER_SOURCE"));
        transfers.writeUInt16BE(FED + 1, row + defined("TRANSFER_DESTINATION"));
        transfers[row + defined("TRANSFER_MINT_FLAG")] = 1;
        transfers.fill(3, row + defined("TRANSFER_MINT"), row + defined("TRANSFER_MINT") + 32);
        transfers.writeBigUInt64LE(most, row + defined("TRANSFER_AMOUNT"));
        transfers[row + defined("TRANSFER_FEE_FLAG")] = 1;
        transfers.writeBigUInt64LE(1n, row + defined("TRANSFER_FEE"));
    }
    return [report, transfers];
}

// A feed of so many bytes of the transfers as they stand: number, place, rows and fed.
function feed(report, rows, fed, length) {
    library.mbelaguy_month(answerAt, ...from(reportAt, report), rows, fed, ...from(transfersAt, length));
    const answer = new DataView(memory.buffer, answerAt);
    return [answer.getUint32(0, true), answer.getUint32(4, true), Number(answer.getBigUint64(8, true)), answer.getUint32(16, true)];
}

function checkMonth() {
    const [report, transfers] = month();
    const refusals = Object.fromEntries(["TRANSFER_TABLE", "REPORT", "REPORT_ROWS", "LIMIT"].map((name) => [name, defined(`REFUSED_${name}`)]));
    const same = (one, other) => one.every((number, k) => number === other[k]);
    const lent = memory.subarray(reportAt - AROUND, reportAt + WIDE + AROUND);
    // A feed that is refused: all bytes stay.
    const refused = (number, rows, fed, length) => {
        const before = lent.slice();
        if (!same(feed(TIGHT, rows, fed, length), [number, 0, rows, fed])) fail("another answer to a feed");
        if (Buffer.compare(lent, before) !== 0) fail("a refused feed changed the report");
    };
    // A byte that is spoilt for one feed.
    const spoilt = (number, at, by) => {
        const good = memory[at];
        memory[at] = by;
        refused(number, LINES, FED, transfers.length);
        memory[at] = good;
    };
    // A feed that leaves the report that it has to be. The bytes behind its rows are filled again.
    const accepted = (room, rows, fed, length) => {
        const [used, stop] = [reportAt + report.length, reportAt + room];
        if (!same(feed(room, rows, fed, length), [0, 0, LINES, FED])) fail("another answer to a feed");
        if (report.compare(memory, reportAt, used) !== 0 || !all(used, stop, 0)) fail("another report");
        if (!all(reportAt - AROUND, reportAt, FILL) || !all(stop, stop + AROUND, FILL)) fail("bytes around the report were written");
        memory.fill(FILL, used, stop);
    };

    memory.set(transfers, transfersAt);
    if (!same(feed(0, 0, 0, 0), [0, 0, 0, 0])) fail("another answer to a feed where all is empty");
    if (!same(feed(0, 0, 0, transfers.length), [refusals.REPORT_ROWS, 0, 0, 0]) || !same(feed(0, 1, 0, 0), [refusals.REPORT, 0, 1, 0])) {
        fail("another answer to a feed where the report is empty");
    }
    lent.fill(FILL);
    accepted(WIDE, 0, 0, transfers.length);
    lent.fill(FILL);
    accepted(TIGHT, 0, 0, transfers.length);
    accepted(TIGHT, LINES, FED, 0);

    refused(refusals.TRANSFER_TABLE, LINES, FED, transfers.length - 1);
    spoilt(refusals.TRANSFER_TABLE, transfersAt + defined("TRANSFER_MINT_FLAG"), 2);
    spoilt(refusals.TRANSFER_TABLE, transfersAt + defined("TRANSFER_FEE_FLAG"), 2);
    refused(refusals.REPORT, LINES + 1, FED, transfers.length);
    refused(refusals.REPORT, 2 ** 32 - 1, FED, 0);
    spoilt(refusals.REPORT, reportAt + (LINES - 1) * defined("REPORT_ROW") + defined("REPORT_ACCOUNT_FLAG"), 2);
    spoilt(refusals.REPORT, reportAt + defined("REPORT_ROW") + defined("REPORT_MINT"), 2);
    spoilt(refusals.REPORT, reportAt + defined("REPORT_DEBITS") + 12, 1);
    spoilt(refusals.REPORT, reportAt + defined("REPORT_APART") + 3, 1);
    refused(refusals.LIMIT, LINES, defined("MAX_FED"), defined("TRANSFER_ROW"));
    memory[transfersAt + defined("TRANSFER_DESTINATION")] = 255;
    refused(refusals.REPORT_ROWS, LINES, defined("MAX_FED"), defined("TRANSFER_ROW"));
}

function answers() {
    // The stack lies below the module's data, which is less than 64 KB: the lowest byte that is no longer as it was tells how far it went.
    const top = base - (base % 65536);
    memory.fill(FILL, 0, top);
    if (call([], [], [0, 0, 0, 0, 0])[0] !== 1) fail("another answer where all is empty");
    let [count, different] = [0, 0];
    for (let at = 0; at + 4 <= file.length; count++) {
        const length = file.readUInt32LE(at);
        const record = file.subarray(at + 4, at + 4 + length);
        const found = record.length === length ? difference(record) : UNFIT;
        if (found && different++ < 10) console.log(`record ${count}: ${found}`);
        at += 4 + record.length;
    }
    console.log(`${count} answers, ${different} different`);
    checkBalances();
    checkMonth();
    const depth = top - memory.findIndex((byte) => byte !== FILL);
    console.error(`a call took ${depth} bytes of stack`);
    if (depth > defined("STACK")) fail("that is more than the header says");
}

// The tables have as many rows as the pack needs. The fastest of many batches counts.
function time() {
    const [names, pack, lengths] = [file.subarray(0, 88), file.subarray(88), [0, 0, 0, 0, 0]];
    for (let answer; (answer = call(names, pack, lengths))[0] === 8; ) lengths[answer[1]] += WIDTHS[answer[1]];
    const words = [answerAt, packAt, 88, packAt + 88, pack.length, ...lengths.flatMap((length, t) => from(tablesAt[t], length))];
    let best = Infinity;
    for (let batch = 0; batch < 1000; batch++) {
        const start = process.hrtime.bigint();
        for (let k = 0; k < 100; k++) library.mbelaguy_route(...words);
        best = Math.min(best, Number(process.hrtime.bigint() - start) / 100);
    }
    console.log(best.toFixed(0));
}

if (library.mbelaguy_version() !== defined("VERSION_NUMBER")) fail("the library has another version than the header");
if (what === "time") time();
else answers();
