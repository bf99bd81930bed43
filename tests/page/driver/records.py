"""What the browser's storage has, as a page reads and writes it that shares the storage with Galluspa."""

# Does something with the store, as the script `task` has it, and returns the result of the request that it makes last.
WITH_STORE = """
new Promise((done) => {
  const opened = indexedDB.open("galluspa", 1);
  opened.onupgradeneeded = () => opened.result.createObjectStore("sessions", { keyPath: "id" });
  opened.onsuccess = () => {
    const transaction = opened.result.transaction("sessions", "readwrite"), store = transaction.objectStore("sessions"), asked = ((store) => { %s })(store);
    transaction.oncomplete = () => { opened.result.close(); done(asked?.result); };
  };
})
"""
# All records; their number; and the store emptied.
ALL = WITH_STORE % "return store.getAll();"
NUMBER = WITH_STORE % "return store.count();"
CLEAR = WITH_STORE % "return store.clear();"
# The heads, and the bodies by their ids.
PARTED = f"""
{ALL.strip()}.then((all) => ({{ heads: all.filter(({{ of }}) => of), bodies: Object.fromEntries(all.filter(({{ of }}) => !of).map((body) => [body.id, body])) }}))
"""
# Holds up all that the page writes from here on: a transaction that never ends.
HOLD_UP = """
new Promise((done) => {
  const opened = indexedDB.open("galluspa", 1);
  opened.onsuccess = () => {
    const store = opened.result.transaction("sessions", "readwrite").objectStore("sessions"), again = () => (store.get(0).onsuccess = again);
    again();
    done();
  };
})
"""
