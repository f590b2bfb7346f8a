// The same types for `import`.
export * from "./library.cjs";
