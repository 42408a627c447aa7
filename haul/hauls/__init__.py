"""Operations on whole hauls: joining, checking, indexing, and counting by parts."""
