// A WebSocket (RFC 6455), as much of it as texts between two programs on one machine need.
import { randomBytes } from 'node:crypto';
import { request } from 'node:http';

/** The socket to a place, after the handshake. */
export function connected(place) {
    const key = randomBytes(16).toString('base64');
    const headers = { Connection: 'Upgrade', Upgrade: 'websocket', 'Sec-WebSocket-Version': '13', 'Sec-WebSocket-Key': key };
    return new Promise((done, fail) => {
        const asked = request(`http://${place}/session`, { headers });
        asked.once('upgrade', (_, socket) => done(socket.on('error', () => {}).unref()));
        asked.once('response', ({ statusCode }) => fail(new Error(`Firefox answers with status ${statusCode}`)));
        asked.once('error', fail);
        asked.end();
    });
}

/** A text as one frame, masked as a client's are. */
export function framed(text) {
    const bytes = Buffer.from(text);
    const mask = randomBytes(4);
    const head = Buffer.alloc(bytes.length < 126 ? 2 : bytes.length < 65536 ? 4 : 10); // bytes
    head[0] = 0x81; // a text, and the whole of it
    head[1] = 0x80 | { 2: bytes.length, 4: 126, 10: 127 }[head.length]; // masked, and the length or how it is written
    if (head.length === 4) head.writeUInt16BE(bytes.length, 2);
    if (head.length === 10) head.writeBigUInt64BE(BigInt(bytes.length), 2);
    return Buffer.concat([head, mask, bytes.map((byte, at) => byte ^ mask[at % 4])]);
}

/** Takes bytes as they come, and hands on each text that is complete. */
export function unframed(heard) {
    let rest = Buffer.alloc(0);
    let parts = []; // of a text in several frames
    return (bytes) => {
        rest = Buffer.concat([rest, bytes]);
        for (let frame; (frame = firstFrame(rest)); rest = rest.subarray(frame.end)) {
            if (frame.control) continue;
            parts.push(rest.subarray(frame.start, frame.end));
            if (!frame.last) continue;
            const text = Buffer.concat(parts).toString();
            parts = [];
            heard(text);
        }
    };
}

/** Where the first frame's own bytes are, if they are all there. */
function firstFrame(bytes) {
    if (bytes.length < 2) return undefined;
    const short = bytes[1] & 0x7f;
    const start = { 126: 4, 127: 10 }[short] ?? 2; // bytes
    if (bytes.length < start) return undefined;
    const length = { 2: () => short, 4: () => bytes.readUInt16BE(2), 10: () => Number(bytes.readBigUInt64BE(2)) }[start]();
    if (bytes.length < start + length) return undefined;
    return { last: bytes[0] & 0x80, control: bytes[0] & 0x08, start, end: start + length };
}
