// The language server: what each method of the protocol does, and when it may.
import { WATCHED } from './beside.mjs';
import { Actions, KINDS } from './actions.mjs';
import { Checking } from './checking.mjs';
import { Connection } from './connection.mjs';
import { ENCODINGS } from './document.mjs';
import { Editor, NAME } from './editor.mjs';
import { Engine } from './engine.mjs';
import { Progress } from './progress.mjs';
import { CODES, ResponseError } from './protocol.mjs';
import { COMMANDS, Rewriting } from './rewriting.mjs';
import { Shown, UNNECESSARY, texts } from './shown.mjs';
import { CHECK_WORKSPACE, Workspace } from './workspace.mjs';

const INCREMENTAL = 2;
const WARNING = 2;
// How often it looks whether the editor's process is still there.
const PARENT_MS = 5000;
// (for the tests)
const SHORT = { isTest: true, idleMs: 1000 };

/** What an editor can show, by what it says at the beginning. */
function abilitiesOf({ workspace = {}, textDocument = {}, window = {} }) {
  const { publishDiagnostics, hover, codeAction } = textDocument;
  return {
    pull: Boolean(textDocument.diagnostic),
    refresh: Boolean(workspace.diagnostics?.refreshSupport),
    versions: Boolean(publishDiagnostics?.versionSupport),
    tags: Boolean(publishDiagnostics?.tagSupport?.valueSet?.includes?.(UNNECESSARY)),
    markdown: Boolean(hover?.contentFormat?.includes?.('markdown')),
    literals: Boolean(codeAction?.codeActionLiteralSupport),
    edits: Boolean(workspace.workspaceEdit?.documentChanges),
    progress: Boolean(window.workDoneProgress),
    creates: Boolean(workspace.workspaceEdit?.resourceOperations?.includes?.('create')),
    links: Boolean(publishDiagnostics?.codeDescriptionSupport),
    configuration: Boolean(workspace.configuration),
    watch: Boolean(workspace.didChangeWatchedFiles?.dynamicRegistration),
    configure: Boolean(workspace.didChangeConfiguration?.dynamicRegistration),
  };
}

export class Server {
  /** `onExit` is handed the status with which the process should end. */
  constructor(input, output, { onExit, log, isTest = false }) {
    const how = { onLog: log, ...(isTest ? SHORT : {}) },
      editor = new Editor(),
      engine = new Engine(how),
      background = new Engine({ onLog: log });
    // (changes are judged in a thread of their own, so that reports don't wait for them)
    const changing = new Engine(how);
    const connection = new Connection(input, output, {
      requests: this.requests(isTest),
      notifications: this.notifications(),
      gate: (method, isRequest) => this.gate(method, isRequest),
      onEnd: (why) => this.exit(why === 'closed' && this.state === 'shut' ? 0 : 1),
      onFault: (error) => log(error?.stack ?? String(error)),
    });
    const shared = { editor, engine, changing, connection, log, progress: new Progress(connection, editor.can), shown: new Shown(editor) };
    shared.checking = new Checking(shared);
    shared.rewriting = new Rewriting(shared);
    Object.assign(this, shared, {
      onExit,
      background,
      state: 'begun',
      actions: new Actions(shared),
      workspace: new Workspace({ ...shared, engine: background }),
    });
  }

  /** Why a method isn't allowed in this state, or null. */
  gate(method, isRequest) {
    if (method === 'exit') return null;
    if (this.state === 'begun' && method !== 'initialize') return new ResponseError(CODES.notInitialized, 'the first request is initialize');
    if (this.state !== 'begun' && method === 'initialize') return new ResponseError(CODES.invalid, 'initialize comes once');
    if (this.state === 'shut' && isRequest) return new ResponseError(CODES.invalid, 'nothing comes after shutdown but exit');
    return null;
  }

  exit(status) {
    if (this.state === 'gone') return;
    this.state = 'gone';
    this.checking.stopAll();
    for (const it of [this.engine, this.changing, this.background]) it.end();
    this.onExit(status);
  }

  requests(isTest) {
    return {
      initialize: (params) => this.initialize(params),
      shutdown: () => {
        this.state = 'shut';
      },
      'textDocument/codeAction': (params, context) => this.actions.codeActions(params, context),
      'textDocument/formatting': (params, context) => this.rewriting.format(params, context),
      'textDocument/rangeFormatting': (params, context) => this.rewriting.formatRange(params, context),
      'textDocument/hover': (params, context) => this.checking.hover(params, context),
      'textDocument/diagnostic': (params, context) => this.checking.pulled(params, context),
      'workspace/executeCommand': (params, context) => this.execute(params, context),
      ...(isTest ? { '$/test': ({ kind, mostMs, isChange }, { signal }) => (isChange ? this.changing : this.engine).run(kind, {}, { signal, mostMs }) } : {}),
    };
  }

  notifications() {
    return {
      initialized: () => this.initialized(),
      exit: () => this.exit(this.state === 'shut' ? 0 : 1),
      'textDocument/didOpen': ({ textDocument }) => this.checking.plan(this.editor.open(textDocument), 0),
      'textDocument/didChange': (params) => this.changed(params),
      'textDocument/didSave': ({ textDocument }) => {
        if (this.editor.isSettings(textDocument?.uri)) this.checking.planAll();
      },
      'textDocument/didClose': ({ textDocument }) => this.closed(textDocument?.uri),
      'workspace/didChangeConfiguration': ({ settings }) => {
        this.editor.take(settings?.[NAME] ?? settings ?? null);
        this.configured();
      },
      'workspace/didChangeWatchedFiles': () => {
        this.editor.beside.forget();
        this.checking.planAll();
      },
      'workspace/didChangeWorkspaceFolders': ({ event }) => this.foldersChanged(event),
      'window/workDoneProgress/cancel': ({ token }) => this.progress.cancel(token),
    };
  }

  // ---- the beginning

  initialize({ capabilities, initializationOptions, processId, workspaceFolders, rootUri }) {
    const { editor } = this,
      can = capabilities ?? {},
      encodings = can.general?.positionEncodings;
    this.state = 'ready';
    // (the editor's list is in the order of its liking)
    editor.encoding = (Array.isArray(encodings) ? encodings : []).find((it) => ENCODINGS.includes(it)) ?? 'utf-16';
    Object.assign(editor.can, abilitiesOf(can));
    editor.take(initializationOptions ?? null);
    editor.folders = this.addresses(workspaceFolders ?? (rootUri ? [{ uri: rootUri }] : []));
    if (Number.isInteger(processId)) this.watchParent(processId);
    return { capabilities: this.capabilities(), serverInfo: { name: 'jslint-lsp', version: texts.version } };
  }

  capabilities() {
    const { can, encoding } = this.editor;
    return {
      positionEncoding: encoding,
      textDocumentSync: { openClose: true, change: INCREMENTAL, save: { includeText: false } },
      codeActionProvider: can.literals ? { codeActionKinds: Object.values(KINDS) } : true,
      documentFormattingProvider: { workDoneProgress: true },
      documentRangeFormattingProvider: true,
      hoverProvider: true,
      executeCommandProvider: { commands: [...Object.values(COMMANDS), CHECK_WORKSPACE], workDoneProgress: true },
      ...(can.pull ? { diagnosticProvider: { identifier: NAME, interFileDependencies: false, workspaceDiagnostics: false } } : {}),
      workspace: { workspaceFolders: { supported: true, changeNotifications: true } },
    };
  }

  initialized() {
    const { watch, configure } = this.editor.can,
      watchers = WATCHED.map((name) => ({ globPattern: `**/${name}` }));
    const registrations = [
      ...(watch ? [{ id: 'files', method: 'workspace/didChangeWatchedFiles', registerOptions: { watchers } }] : []),
      ...(configure ? [{ id: 'settings', method: 'workspace/didChangeConfiguration', registerOptions: { section: NAME } }] : []),
    ];
    if (registrations.length) this.connection.request('client/registerCapability', { registrations }).catch(() => {});
    this.configured();
  }

  /** Asks for the section `jslint` of the editor's settings, if the editor can say it, and checks by them. */
  async configured() {
    if (this.editor.can.configuration) {
      const found = await this.connection.request('workspace/configuration', { items: [{ section: NAME }] }).catch(() => null);
      this.editor.take(Array.isArray(found) ? found[0] ?? null : null);
    }
    this.checking.planAll();
  }

  /** Ends where the editor's process has ended without a word. */
  watchParent(id) {
    const look = () => {
      try {
        process.kill(id, 0);
      } catch (error) {
        if (error.code === 'ESRCH') this.exit(1);
      }
    };
    setInterval(look, PARENT_MS).unref();
  }

  // ---- texts and folders

  addresses(folders) {
    return (Array.isArray(folders) ? folders : []).map((it) => it?.uri).filter((it) => typeof it === 'string');
  }

  foldersChanged(event) {
    const gone = new Set(this.addresses(event?.removed));
    this.editor.folders = [...this.editor.folders.filter((it) => !gone.has(it)), ...this.addresses(event?.added)];
  }

  /** Takes changes of a text. After one that makes no sense its text isn't known any more, and nothing is said of it. */
  changed({ textDocument, contentChanges }) {
    const document = this.editor.documents.get(textDocument?.uri);
    if (!document) return;
    try {
      document.change(contentChanges, textDocument.version);
    } catch (error) {
      this.closed(document.uri);
      this.connection.notify('window/showMessage', {
        type: WARNING,
        message: `jslint: ${document.uri}: a change made no sense (${error.message}). Open the file again`,
      });
      return;
    }
    this.checking.plan(document.uri, this.editor.options.debounce);
  }

  closed(uri) {
    const document = this.editor.documents.get(uri);
    if (!document) return;
    document.drop();
    this.editor.documents.delete(uri);
    this.checking.closed(uri);
    // (what isn't saved doesn't count any more)
    if (this.editor.isSettings(uri)) this.checking.planAll();
  }

  async execute({ command, arguments: words, workDoneToken }, { signal }) {
    if (command === CHECK_WORKSPACE) return this.workspace.check(workDoneToken, signal);
    if (Object.values(COMMANDS).includes(command)) return this.rewriting.execute(command, words, workDoneToken, signal);
    throw new ResponseError(CODES.params, `no command ${command}`);
  }
}
