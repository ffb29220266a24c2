// What the document's blocks in TypeScript, and the test of the types, name besides this package.
declare module "zod" {
  interface Context { addIssue(issue: { code: "custom"; message: string }): void }
  export const z: { unknown(): { transform<T>(of: (data: unknown, context: Context) => T): T }; NEVER: never };
}
declare module "node:assert/strict" {
  const assert: { deepEqual(one: unknown, other: unknown): void; throws(call: () => unknown, type: unknown, text: string): void };
  export default assert;
}
declare const Temporal: any;
