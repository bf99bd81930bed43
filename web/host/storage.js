// @ts-check
/* The browser's storage: a database with one store of records. The connection stays open, so that something can still be written while the page is being
 * left. Other pages may share the storage with this one. */
import { Refusal } from "./requests.js";
import { clearLog, logged, loggedGroups } from "./writeahead.js";

const RECORDS = "sessions", STORAGE_MS = 10000;
// The open connection, and the one that is being opened.
/** @type {{ connection: IDBDatabase | null, opening: Promise<IDBDatabase> | null }} */
export const storage = { connection: null, opening: null };

/** Returns the database, opened if it is not yet. */
export function database() {
  if (storage.connection) return Promise.resolve(storage.connection);
  return (storage.opening ??= opened().finally(() => (storage.opening = null)));
}

/** Opens the database. It is refused after some seconds: another page may keep the browser from opening it.
 * @returns {Promise<IDBDatabase>} */
function opened() {
  return new Promise((resolve, reject) => {
    const asked = indexedDB.open("galluspa", 1);
    asked.onupgradeneeded = () => asked.result.createObjectStore(RECORDS, { keyPath: "id" });
    const late = setTimeout(() => {
      reject(new Refusal("the browser's storage does not answer"));
      asked.onsuccess = () => asked.result.close();
    }, STORAGE_MS);
    /** @param {() => void} settle */
    const inTime = (settle) => () => (clearTimeout(late), settle());
    asked.onsuccess = inTime(() => resolve(connected(asked.result)));
    asked.onerror = inTime(() => reject(reasonOf(asked.error)));
  });
}

/** Takes a connection. It is given up as soon as another page wants to change or to delete the database.
 * @param {IDBDatabase} connection */
function connected(connection) {
  const giveUp = () => {
    connection.close();
    storage.connection = null;
  };
  return (storage.connection = Object.assign(connection, { onversionchange: giveUp, onclose: giveUp }));
}

/** Writes what a page logged while it was left, unless something was written later. What is asked of the connection after this comes after it. Another page may be
 * left at any time, so what is read comes after this.
 * @param {IDBDatabase} connection */
function writeLogged(connection) {
  for (const { records, forget } of loggedGroups()) {
    const [head] = records, transaction = connection.transaction(RECORDS, "readwrite"), store = transaction.objectStore(RECORDS), asked = store.get(head.id);
    asked.onsuccess = () => {
      if (!(asked.result?.at >= head.at)) for (const record of records) store.put(record);
    };
    transaction.oncomplete = forget;
  }
}

/** Reads from the store, or writes to it. Returns the results of the requests that `task` makes.
 * @param {IDBTransactionMode} mode
 * @param {(store: IDBObjectStore) => IDBRequest[]} task
 * @returns {Promise<any[]>} */
export async function withStore(mode, task) {
  const connection = await database();
  if (mode === "readonly") writeLogged(connection);
  return transacted(connection, mode, task);
}

/**
 * @param {IDBDatabase} connection
 * @param {IDBTransactionMode} mode
 * @param {(store: IDBObjectStore) => IDBRequest[]} task
 * @returns {Promise<any[]>}
 */
function transacted(connection, mode, task) {
  const transaction = connection.transaction(RECORDS, mode), asked = task(transaction.objectStore(RECORDS));
  if (mode === "readwrite") transaction.commit?.();
  return new Promise((resolve, reject) => {
    transaction.oncomplete = () => resolve(asked.map(({ result }) => result));
    transaction.onabort = () => reject(reasonOf(transaction.error));
  });
}

/** Returns why the storage failed, in words: the browser's error for a full storage has no message.
 * @param {DOMException | null} error */
function reasonOf(error) {
  if (error?.name === "QuotaExceededError") return new Refusal("the browser's storage is full");
  return error?.message ? error : new Refusal(`the browser's storage failed (${error?.name ?? "no reason given"})`);
}

/** Puts records at once, of which the first one says when they were made. While the page is being left they are logged until the database has them: the browser
 * has the whole transaction when this returns, but drops it if it waits for another one when the page is gone.
 * @param {{ id: string, at: number }[]} records
 * @param {boolean} isLeaving */
export async function put(records, isLeaving) {
  const forget = isLeaving ? logged(records) : () => {}, connection = storage.connection ?? (await database());
  await transacted(connection, "readwrite", (store) => records.map((record) => store.put(record)));
  forget();
}

export function deleteStorage() {
  clearLog();
  return new Promise((resolve, reject) => {
    const asked = indexedDB.deleteDatabase("galluspa");
    asked.onsuccess = resolve;
    asked.onerror = () => reject(asked.error);
  });
}
