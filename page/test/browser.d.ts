// What browsers have and the type checker of this age does not know. tools: tsc -p page/test
declare const DecompressionStream: { new (format: string): ReadableWritablePair<Uint8Array, Uint8Array> };
declare const CompressionStream: { new (format: string): ReadableWritablePair<Uint8Array, Uint8Array> };
interface Element {
  checkVisibility(): boolean;
}
