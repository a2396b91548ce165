// The debugger and the language server in VS Code: starts `parbegin dap`, with the text in the launch request, and
// `parbegin lsp`. The program is to be on the path.
const vscode = require("vscode");

/** Adds the text to a configuration: what the editor shows, with edits that are not saved, and the picks behind it. */
async function withText(configuration) {
  if (configuration.text === undefined) {
    const document = await vscode.workspace.openTextDocument(configuration.program);
    const text = document.getText().replace(/\n?$/, "\n");
    configuration.text = configuration.picks === undefined ? text : `${text}%%\n${configuration.picks}`;
  }
  return configuration;
}

let client;

/** Starts the language server, if the package vscode-languageclient is there. */
function startServer() {
  let LanguageClient;
  try {
    ({ LanguageClient } = require("vscode-languageclient/node"));
  } catch {
    return;
  }
  const run = { command: "parbegin", args: ["lsp"] };
  client = new LanguageClient("parbegin", run, { documentSelector: [{ language: "parbegin" }] });
  client.start();
}

exports.deactivate = () => client && client.stop();

exports.activate = (context) => {
  startServer();
  context.subscriptions.push(
    vscode.debug.registerDebugConfigurationProvider("parbegin", {
      resolveDebugConfigurationWithSubstitutedVariables: (_folder, configuration) => withText(configuration),
    }),
    vscode.debug.registerDebugAdapterDescriptorFactory("parbegin", {
      createDebugAdapterDescriptor: () => new vscode.DebugAdapterExecutable("parbegin", ["dap"]),
    }),
  );
};
