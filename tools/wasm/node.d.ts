// What the tests of this folder use of node, whose own types Debian doesn't have.

interface Buffer extends Uint8Array {
  equals(other: Uint8Array): boolean;
  indexOf(value: number, from?: number): number;
  subarray(start?: number, end?: number): Buffer;
}

declare const Buffer: {
  alloc(size: number): Buffer;
  compare(one: Uint8Array, other: Uint8Array): number;
  concat(list: Uint8Array[]): Buffer;
  from(text: string, encoding?: string): Buffer;
  from(bytes: Uint8Array): Buffer;
};

declare const process: {
  argv: string[];
  env: Record<string, string>;
  exitCode: number;
};

declare module "node:fs" {
  export function readFileSync(path: string | URL): Buffer;
  export function readFileSync(path: string | URL, encoding: "utf8"): string;
}

declare module "node:crypto" {
  interface Hash {
    update(bytes: Uint8Array): Hash;
    digest(encoding: "hex"): string;
  }
  export function createHash(name: string): Hash;
}

declare module "node:test" {
  export function test(name: string, doing: () => void): void;
}

declare module "node:assert/strict" {
  const assert: {
    ok(value: unknown): void;
    equal(found: unknown, wanted: unknown): void;
    deepEqual(found: unknown, wanted: unknown): void;
    throws(doing: () => void, fault: Function | ((fault: unknown) => boolean)): void;
  };
  export default assert;
}
