      STOP 'It''s  done'
      END
