//! The refusals of documents 01 and 02.

use crate::coded::coded;

coded! {
    /// Why a page, a message or a bundle is refused. A call that is refused changes nothing.
    Refusal, "the code of a refusal":
    BadGroup = 1, "n outside 1 to 16, or 5 * f >= n";
    BadAccounts = 2, "k outside 1 to 32, or a balance behind the k-th that is not 0";
    SumTooLarge = 3, "opening sum above the limit";
    UnknownSeat = 4, "an ack's seat is n or more";
    OutOfRange = 5, "account or recipient is k or more, number 0, value 0, or value above the opening sum; \
        for a balance question: account is k or more";
    PastNumber = 6, "number at or below current";
    FutureNumber = 7, "number above current + 1";
    AlreadyAccepted = 8, "a slip with this account and number is accepted and waits";
    AckRepeated = 9, "an ack from the ack's seat is recorded for this number and its slip is equal";
    AckConflicting = 10, "an ack from the ack's seat is recorded for this number and its slip conflicts";
    InsufficientFunds = 11, "request or slip with a value above the balance";
    AlreadyAcked = 12, "slip for a number that this seat has acked";
    BadHeader = 13, "fewer than 2 bytes, m outside 1 to 1,000, or fewer than 2 + 8m bytes";
    BadContents = 14, "a wrong contents entry; handed over by itself: a kind that is no message, or a seat where \
        the kind has none";
    BadEnd = 15, "the bundle does not end with its last body; handed over by itself: a body or page of another \
        length";
    BadSum = 16, "a wrong sum";
    ShortBuffer = 17, "waiting-list buffer under 32 bytes";
    TooManyMessages = 18, "more than 999 messages";
    NoRoom = 19, "the buffer is shorter than the bundle";
    SelfPayment = 20, "request or slip whose recipient is the payer";
    PagesDiffer = 21, "the two bundles' opening pages differ";
}

#[cfg(test)]
mod tests {
    use super::Refusal;

    #[test]
    fn each_code_answers_its_refusal() {
        for (code, refusal) in (1..=21).zip(Refusal::ALL) {
            assert_eq!(Refusal::answered(code), *refusal);
        }
    }

    #[test]
    #[should_panic(expected = "the code of a refusal: 22, which the package saplull does not know")]
    fn a_newer_code_is_told() {
        Refusal::answered(22);
    }
}
