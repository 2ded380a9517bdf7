//! What holds a value: boxes, counted references, cells, locks, channels.
use crate::rows::Rows;
use std::cell::{Cell, LazyCell, OnceCell, RefCell, UnsafeCell};
use std::panic::{catch_unwind, resume_unwind, AssertUnwindSafe};
use std::rc::{Rc, Weak};
use std::sync::{self, mpsc, Arc, Barrier, Condvar, LazyLock, Mutex, Once, OnceLock, RwLock};

pub fn add(rows: &mut Rows) {
    references(rows);
    cells(rows);
    locks(rows);
    waiting(rows);
    channels(rows);
}

fn references(rows: &mut Rows) {
    rows.add("Box", &Box::new(1));
    rows.add("Rc", &Rc::new((1, 2)));
    rows.add("Arc", &Arc::new(Some("a")));
    rows.add("reference to a reference", &&&1);
    rows.add("rc::Weak", &Weak::<u8>::new());
    rows.add("sync::Weak in a list", &[sync::Weak::<u8>::new()]);
}

fn cells(rows: &mut Rows) {
    rows.add("Cell", &Cell::new(1));
    rows.add("UnsafeCell", &UnsafeCell::new(1));
    let cell = RefCell::new(vec![1, 2]);
    rows.add("RefCell", &cell);
    rows.add("Ref", &cell.borrow());
    let guard = cell.borrow_mut();
    rows.add("RefCell borrowed", &cell);
    rows.add("RefCell borrowed, in Some", &Some(&cell));
    rows.add("RefMut", &guard);
    rows.add("OnceCell", &OnceCell::from(1));
    rows.add("OnceCell, empty", &OnceCell::<u8>::new());
    let lazy = LazyCell::new(|| 1.5);
    rows.add("LazyCell not yet made", &lazy);
    LazyCell::force(&lazy);
    rows.add("LazyCell", &lazy);
}

fn locks(rows: &mut Rows) {
    let mutex = Mutex::new(0);
    rows.add("Mutex", &mutex);
    rows.add("Mutex in Arc in Some", &Some(Arc::new(Mutex::new("a"))));
    let guard = mutex.lock().unwrap();
    rows.add("Mutex locked", &mutex);
    rows.add("MutexGuard", &guard);
    drop(guard);
    rows.add("Mutex poisoned", poisoned(&mutex));
    let lock = RwLock::new([1, 2]);
    rows.add("RwLock", &lock);
    rows.add("RwLock read", &lock.read().unwrap());
    let guard = lock.write().unwrap();
    rows.add("RwLock locked", &lock);
    drop(guard);
    rows.add("locks in a list", &[Mutex::new(Some(1)), Mutex::new(None)]);
    rows.add("lock in a lock", &RwLock::new(Mutex::new(())));
}

fn poisoned(mutex: &Mutex<u8>) -> &Mutex<u8> {
    let ended = catch_unwind(AssertUnwindSafe(|| {
        let _guard = mutex.lock();
        resume_unwind(Box::new(()))
    }));
    assert!(matches!(ended, Err(_)) && mutex.is_poisoned());
    mutex
}

fn waiting(rows: &mut Rows) {
    rows.add("Once", &Once::new());
    rows.add("OnceLock", &OnceLock::from("a"));
    rows.add("OnceLock, empty", &OnceLock::<u8>::new());
    rows.add("LazyLock not yet made", &LazyLock::new(|| 1));
    rows.add("Condvar", &Condvar::new());
    rows.add("Barrier", &Barrier::new(2));
    rows.add("a lock and its Condvar", &(Mutex::new(false), Condvar::new()));
}

fn channels(rows: &mut Rows) {
    let (sender, receiver) = mpsc::channel::<u8>();
    rows.add("Sender", &sender);
    rows.add("Receiver", &receiver);
    let empty = receiver.try_recv();
    rows.add("TryRecvError", &empty);
    drop(sender);
    rows.add("RecvError", &receiver.recv());
    drop(receiver);
    let (sender, receiver) = mpsc::sync_channel::<u8>(0);
    rows.add("TrySendError", &sender.try_send(1));
    drop(receiver);
    rows.add("SendError", &sender.send(1));
}
