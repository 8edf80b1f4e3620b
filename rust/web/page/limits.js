/** The most items of a section, and instructions of a function, that are listed. */
export const MOST_ITEMS = 100_000;
export const HEADER_SIZE = 8;
/** How many items a message of the worker has: the page takes one without a pause that is felt. */
export const MESSAGE_ITEMS = 2_000;
