-- Asks every function of each text of the table `asked` and fails at the first answer that is not the one told there.
DO $$
DECLARE
    wanted record;
    refused bigint := 0;
BEGIN
    FOR wanted IN SELECT * FROM asked LOOP
        ASSERT menkhodur_is_key(wanted.fen) = wanted.is_key, 'menkhodur_is_key of ' || left(wanted.fen, 100);
        ASSERT menkhodur_fault(wanted.fen)::text IS NOT DISTINCT FROM wanted.json, 'menkhodur_fault of ' || left(wanted.fen, 100);
        ASSERT menkhodur_is_settled(wanted.fen) = wanted.is_settled, 'menkhodur_is_settled of ' || left(wanted.fen, 100);
        BEGIN
            ASSERT menkhodur_key(wanted.fen) IS NOT DISTINCT FROM wanted.key, 'menkhodur_key of ' || left(wanted.fen, 100);
        EXCEPTION WHEN invalid_text_representation THEN
            ASSERT SQLERRM = wanted.message, 'the error of ' || left(wanted.fen, 100) || ': ' || SQLERRM;
            refused := refused + 1;
        END;
        BEGIN
            ASSERT menkhodur_settled(wanted.fen) IS NOT DISTINCT FROM wanted.settled, 'menkhodur_settled of ' || left(wanted.fen, 100);
        EXCEPTION WHEN invalid_text_representation THEN
            ASSERT SQLERRM = wanted.message, 'the error of ' || left(wanted.fen, 100) || ': ' || SQLERRM;
            refused := refused + 1;
        END;
    END LOOP;
    ASSERT refused = 2 * (SELECT count(*) FROM asked WHERE message IS NOT NULL), 'menkhodur_key or menkhodur_settled accepts what is to be refused';
END $$;
SELECT count(*) || ' texts asked, ' || count(key) || ' accepted, ' || count(*) FILTER (WHERE is_key) || ' of them keys, ' ||
    count(*) FILTER (WHERE is_settled) || ' of these settled' FROM asked;
