// Starts the language server that comes along in server/. Not tried: README.md says what is missing.
const path = require('node:path');
const { commands } = require('vscode');
const { LanguageClient, TransportKind } = require('vscode-languageclient/node');

const SELECTOR = [
  { scheme: 'file', language: 'javascript' },
  { scheme: 'untitled', language: 'javascript' },
  { scheme: 'file', pattern: '**/jslint.toml' },
];
let client;

exports.activate = async (context) => {
  const server = { module: path.join(context.extensionPath, 'server/bin/jslint-lsp.mjs'), transport: TransportKind.stdio };
  client = new LanguageClient('jslint', 'jslint', server, { documentSelector: SELECTOR });
  context.subscriptions.push(commands.registerCommand('jslint.restart', () => client.restart()));
  await client.start();
};

exports.deactivate = () => client?.stop();
