// What comes in from files, and goes out to files and the clipboard, byte for byte.
import { element, the } from './element.js';

/** Calls back with a file that is opened or dropped. */
export function whenOpened(opened) {
    the('file').addEventListener('change', ({ target }) => {
        if (target.files.length > 0) opened(target.files[0]);
        target.value = ''; // so that the same file can be opened again
    });
    const holdsFile = ({ dataTransfer }) => dataTransfer.types.includes('Files');
    addEventListener('dragover', (event) => {
        if (holdsFile(event)) event.preventDefault();
    });
    addEventListener('drop', (event) => {
        if (!holdsFile(event)) return;
        event.preventDefault();
        opened(event.dataTransfer.files[0]);
    });
}

/** Saves bytes as a file of that name. */
export function save(bytes, name) {
    const address = URL.createObjectURL(new Blob([bytes], { type: 'application/octet-stream' }));
    element('a', { href: address, download: name }).click();
    setTimeout(() => URL.revokeObjectURL(address), 60000); // ms; by then it is saved
}

/** Copies what an element shows; gives whether it could. */
export async function copy(shown) {
    try {
        await navigator.clipboard.writeText(shown.textContent);
        return true;
    } catch {
        // Not every browser lends the clipboard to a file: then what is selected is copied
        getSelection().selectAllChildren(shown);
        return document.execCommand('copy');
    }
}
