// The modules in release/, as web/modules.sh found them.
export const MODULES = {
  "sancus": {
    size: 740738,
    sha256: "2ea338cbe0f9b82e25d4a603dc07b8804d6a7435f04fa3588ae195c3d22a419b",
    version: "1.6.0",
  },
  "sancus-lab": {
    size: 712168,
    sha256: "4b24aebe542526044003f9d800bed09269d6c31a800c51a8c12a9547120bb57f",
    version: "1.6.0",
  },
};
