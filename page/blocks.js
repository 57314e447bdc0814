/** A column as a list of blocks; unchanged blocks are kept with their lines. */

export class Blocks {
  #root;
  #make;
  #shown = new Map();

  /** `make` makes a block of what it is given, with its `element`. */
  constructor(root, make) {
    this.#root = root;
    this.#make = make;
  }

  /** Shows one block for each of some things, by a key that says all that it depends on, and returns the blocks. */
  show(things, keyOf) {
    const before = this.#shown;
    this.#shown = new Map();
    const blocks = things.map((thing) => {
      const key = keyOf(thing);
      const block = before.get(key)?.pop() ?? this.#make(thing);
      this.#shown.set(key, [...(this.#shown.get(key) ?? []), block]);
      return block;
    });
    const wanted = new Set(blocks.map(({ element }) => element));
    for (const it of [...this.#root.children]) if (!wanted.has(it)) it.remove();
    blocks.forEach(({ element }, k) => {
      const there = this.#root.children[k];
      if (there !== element) this.#root.insertBefore(element, there ?? null);
    });
    return blocks;
  }

  /** Forgets what was shown, where a width changed. */
  clear() {
    this.#shown.clear();
  }
}
