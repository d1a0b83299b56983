      WRITE (6,10)
   10 FORMAT ('It''s', 2X, 'a b')
      END
