// Says which program is the debug adapter: `cilk dap`, of the `cilk` that a launch.json names, or else of the path.
const vscode = require("vscode");

exports.activate = (context) => {
  const factory = {
    createDebugAdapterDescriptor: (session) =>
      new vscode.DebugAdapterExecutable(session.configuration.cilk || "cilk", ["dap"]),
  };
  context.subscriptions.push(vscode.debug.registerDebugAdapterDescriptorFactory("cilk", factory));
};
